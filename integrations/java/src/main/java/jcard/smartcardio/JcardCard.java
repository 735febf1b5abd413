package jcard.smartcardio;

import java.nio.ByteBuffer;
import java.util.HexFormat;
import javax.smartcardio.ATR;
import javax.smartcardio.Card;
import javax.smartcardio.CardChannel;
import javax.smartcardio.CardException;
import javax.smartcardio.CommandAPDU;
import javax.smartcardio.ResponseAPDU;

/** A connection to the card in a terminal. */
final class JcardCard extends Card {
    /** T=1, whole AIDs alone, neither extended lengths nor logical channels, the name JCARD: the PC/SC reader's for an image with the usual APDU buffer. */
    private static final ATR ANSWER_TO_RESET = new ATR(HexFormat.of().parseHex("3b8b8131fe458073800100554a43415244f9"));

    private final JcardTerminal terminal;
    private final Channel channel = new Channel();
    private boolean isConnected = true;
    private Thread exclusive;

    JcardCard(JcardTerminal terminal) {
        this.terminal = terminal;
    }

    synchronized boolean isConnected() {
        return isConnected;
    }

    @Override
    public ATR getATR() {
        return ANSWER_TO_RESET;
    }

    @Override
    public String getProtocol() {
        return "T=1";
    }

    @Override
    public CardChannel getBasicChannel() {
        requireConnection();
        return channel;
    }

    @Override
    public CardChannel openLogicalChannel() throws CardException {
        requireConnection();
        throw new CardException("the card has no logical channels");
    }

    @Override
    public synchronized void beginExclusive() throws CardException {
        requireConnection();
        requireTurn();
        if (exclusive != null) {
            throw new CardException("this thread has exclusive access already");
        }
        exclusive = Thread.currentThread();
    }

    @Override
    public synchronized void endExclusive() throws CardException {
        requireConnection();
        if (exclusive != Thread.currentThread()) {
            throw new IllegalStateException("this thread has no exclusive access");
        }
        exclusive = null;
    }

    @Override
    public byte[] transmitControlCommand(int controlCode, byte[] command) throws CardException {
        requireConnection();
        throw new CardException("the terminal knows no control command");
    }

    @Override
    public synchronized void disconnect(boolean reset) throws CardException {
        if (!isConnected) {
            return;
        }
        requireTurn();
        exclusive = null;
        isConnected = false;
        if (reset) {
            terminal.powerOff();
        }
    }

    @Override
    public String toString() {
        return "card in " + terminal.getName() + (isConnected() ? "" : ", disconnected");
    }

    private synchronized void requireConnection() {
        if (!isConnected) {
            throw new IllegalStateException("the card is disconnected");
        }
    }

    private void requireTurn() throws CardException {
        if (exclusive != null && exclusive != Thread.currentThread()) {
            throw new CardException("another thread has exclusive access");
        }
    }

    private synchronized byte[] transmit(byte[] command) throws CardException {
        requireConnection();
        requireTurn();
        return terminal.exchange(command);
    }

    /** The basic channel, which the card has alone. */
    private final class Channel extends CardChannel {
        @Override
        public Card getCard() {
            return JcardCard.this;
        }

        @Override
        public int getChannelNumber() {
            requireConnection();
            return 0;
        }

        @Override
        public ResponseAPDU transmit(CommandAPDU command) throws CardException {
            return new ResponseAPDU(JcardCard.this.transmit(command.getBytes()));
        }

        @Override
        public int transmit(ByteBuffer command, ByteBuffer response) throws CardException {
            if (command == response) {
                throw new IllegalArgumentException("command and response are one buffer");
            }
            byte[] bytes = new byte[command.remaining()];
            command.get(bytes);
            byte[] answer = JcardCard.this.transmit(bytes);
            response.put(answer);
            return answer.length;
        }

        @Override
        public void close() {
            throw new IllegalStateException("the basic channel stays open");
        }
    }
}
