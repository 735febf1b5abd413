package jcard.smartcardio;

import java.io.IOException;
import java.util.Objects;
import javax.smartcardio.Card;
import javax.smartcardio.CardException;
import javax.smartcardio.CardTerminal;

/**
 * A terminal with a card in it.
 *
 * <p>The card powers up at the first connection. {@code disconnect(true)} cuts its power, and the next connection powers it up;
 * {@code disconnect(false)} leaves it as it stands. The command {@code FF 53 K K} is the terminal's own: KK further word writes
 * pass, and the power is cut at the next. A command that is cut is a {@link PowerCutException}, and so is each further one up to the
 * next connection; so is a connection whose recovery is cut.
 */
public final class JcardTerminal extends CardTerminal implements AutoCloseable {
    private final String name;
    private final CardSource source;
    private CardProcess process;
    private JcardCard card;
    private boolean isPowered;

    /**
     * A terminal for the card of a source.
     *
     * @param name the name that {@link #getName} answers
     * @param source the card
     */
    public JcardTerminal(String name, CardSource source) {
        this.name = Objects.requireNonNull(name);
        this.source = Objects.requireNonNull(source);
    }

    @Override
    public String getName() {
        return name;
    }

    @Override
    public synchronized Card connect(String protocol) throws CardException {
        if (!protocol.equals("*") && !protocol.equalsIgnoreCase("T=1")) {
            throw new CardException("the card speaks T=1 alone");
        }
        if (card != null && card.isConnected() && isPowered) {
            return card;
        }
        if (!isPowered) {
            powerUp();
        }
        card = new JcardCard(this);
        return card;
    }

    @Override
    public boolean isCardPresent() {
        return true;
    }

    @Override
    public boolean waitForCardPresent(long timeout) {
        if (timeout < 0) {
            throw new IllegalArgumentException("timeout must not be negative");
        }
        return true;
    }

    @Override
    public boolean waitForCardAbsent(long timeout) throws CardException {
        sleep(timeout);
        return false;
    }

    /**
     * Lets this many further word writes pass, as {@code FF 53 K K}; the next one is refused, and the power is gone.
     *
     * @param writes 0 to 65535
     * @throws CardException where the program ended
     */
    public synchronized void cutAfter(int writes) throws CardException {
        if (writes < 0 || writes > CardProcess.NEVER) {
            throw new IllegalArgumentException("writes must be 0 to " + CardProcess.NEVER);
        }
        program().cutAfter(writes);
    }

    /**
     * Lets all further word writes pass.
     *
     * @throws CardException where the program ended
     */
    public synchronized void cutNever() throws CardException {
        program().cutNever();
    }

    /** Cuts the power, and ends the program; an image file may then be used elsewhere. The next connection begins it again. */
    @Override
    public synchronized void close() {
        isPowered = false;
        if (process != null) {
            process.close();
            process = null;
        }
    }

    /** The response to a command. */
    synchronized byte[] exchange(byte[] command) throws CardException {
        if (command.length == 4 && command[0] == (byte) 0xFF && command[1] == 0x53) {
            cutAfter((command[2] & 0xFF) << 8 | command[3] & 0xFF);
            return new byte[] {(byte) 0x90, 0};
        }
        byte[] response = isPowered ? program().transmit(command) : null;
        if (response == null) {
            isPowered = false;
            throw new PowerCutException("the card has no power");
        }
        return response;
    }

    synchronized void powerOff() {
        isPowered = false;
    }

    private void powerUp() throws CardException {
        isPowered = program().powerUp();
        if (!isPowered) {
            throw new PowerCutException("the card lost its power as it powered up");
        }
    }

    private CardProcess program() throws CardException {
        if (process == null) {
            try {
                process = source.begin();
            } catch (IOException error) {
                throw new CardException("the program cannot be begun", error);
            }
        }
        return process;
    }

    /** Waits for a change, of which there is none. */
    static void sleep(long timeout) throws CardException {
        if (timeout < 0) {
            throw new IllegalArgumentException("timeout must not be negative");
        }
        try {
            Thread.sleep(timeout == 0 ? Long.MAX_VALUE : timeout);
        } catch (InterruptedException interrupted) {
            Thread.currentThread().interrupt();
            throw new CardException("interrupted", interrupted);
        }
    }
}
