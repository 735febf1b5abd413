import java.util.List;
import javax.smartcardio.Card;
import javax.smartcardio.CardChannel;
import javax.smartcardio.CardException;
import javax.smartcardio.CardTerminal;
import javax.smartcardio.CommandAPDU;
import javax.smartcardio.ResponseAPDU;
import javax.smartcardio.TerminalFactory;

/**
 * Cuts the power within commands of the counter, and within recoveries behind them, by javax.smartcardio: java ReaderTears.java READER TEARS.
 */
public class ReaderTears {
    static final byte[] COUNTER = {(byte) 0xF0, 0, 0, 0, 1, 1};
    static CardTerminal terminal;
    static Card card;

    public static void main(String[] words) throws Exception {
        terminal = TerminalFactory.getInstance("PC/SC", null).terminals().getTerminal(words[0]);
        int tears = Integer.parseInt(words[1]);
        int tornRecoveries = 0;
        card = terminal.connect("T=1");
        for (int number = 0; number < tears; number++) {
            int before = 2 * number;
            select();
            equal("the value before tear " + number, before, value(ask(0, before, 1)));
            stop(number % 5);
            if (answers(0, before + 1, 1)) {
                throw new Exception("tear " + number + " was none");
            }
            // behind four writes there is something to take back, so the recovery writes
            if (number % 5 == 4) {
                stop(0);
                if (isReset()) {
                    throw new Exception("recovery " + number + " was not torn");
                }
                tornRecoveries++;
            } else if (!isReset()) {
                throw new Exception("no card behind tear " + number);
            }
            select();
            equal("the value behind tear " + number, before, value(ask(1, 0, 0)));
        }
        System.out.println(tears + " tears and " + tornRecoveries + " torn recoveries");
        card.disconnect(false);
    }

    static void select() throws Exception {
        equal("SELECT", 0x9000, transmit(new CommandAPDU(0x00, 0xA4, 0x04, 0x00, COUNTER)).getSW());
    }

    static void stop(int writes) throws Exception {
        for (int i = 0; i < 30; i++) {
            try {
                equal("stop", 0x9000, transmit(new CommandAPDU(0xFF, 0x53, writes >> 8, writes & 0xFF)).getSW());
                return;
            } catch (CardException lost) {
                // a card that lost its contact is asked about again by the driver within half a second
                Thread.sleep(100);
            }
        }
        throw new Exception("the reader does not answer");
    }

    /** Resets the card, and connects again: whether the first reset powered it up. */
    static boolean isReset() throws Exception {
        try {
            card.disconnect(true);
        } catch (CardException torn) {
            // which is told as it is connected
        }
        boolean isFirst = true;
        for (int i = 0; i < 30; i++) {
            try {
                card = terminal.connect("T=1");
                return isFirst;
            } catch (CardException unpowered) {
                // pcscd powers a card that did not answer its reset up again about half a second later
                isFirst = false;
                Thread.sleep(100);
            }
        }
        throw new Exception("no card answers");
    }

    static boolean answers(int instruction, int p1, int p2) {
        try {
            ask(instruction, p1, p2);
            return true;
        } catch (CardException torn) {
            return false;
        }
    }

    static ResponseAPDU ask(int instruction, int p1, int p2) throws CardException {
        return transmit(new CommandAPDU(0x00, instruction, p1, p2));
    }

    static ResponseAPDU transmit(CommandAPDU command) throws CardException {
        return card.getBasicChannel().transmit(command);
    }

    static int value(ResponseAPDU response) throws Exception {
        equal("the status", 0x9000, response.getSW());
        byte[] data = response.getData();
        return (data[0] & 0xFF) << 8 | data[1] & 0xFF;
    }

    static void equal(String what, int wanted, int got) throws Exception {
        if (wanted != got) {
            throw new Exception(what + ": " + wanted + ", but is " + got);
        }
    }
}
