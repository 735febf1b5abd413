import java.nio.charset.StandardCharsets;
import java.nio.file.Path;
import javax.smartcardio.CardException;
import javax.smartcardio.CommandAPDU;
import javax.smartcardio.ResponseAPDU;

/** Tests of the purse: java PurseTest PROGRAM IMAGE, where IMAGE is of a card that has the purse. */
public final class PurseTest {
    private static final byte[] PURSE = {(byte) 0xF0, 'p', 'u', 'r', 's', 'e', 0x01};
    private static final CommandAPDU DEBIT = new CommandAPDU(0x80, 0x40, 0, 0, new byte[] {0, 120});
    private static final String BEFORE = "500 after 1 changes, the last one 500 to 500";
    private static final String AFTER = "380 after 2 changes, the last one -120 to 380";

    private static Path program;
    private static Path image;

    public static void main(String[] words) throws Exception {
        program = Path.of(words[0]);
        image = Path.of(words[1]);
        testDebit();
        testDebitAtEachCut();
        testDebitAtEachCutOfItsRecovery();
        System.out.println("3 tests passed");
    }

    static void testDebit() throws Exception {
        try (Jcard card = new Jcard(program, image)) {
            credit(card);
            equal("the state before", BEFORE, state(card));
            equal("the debit", 0x9000, card.transmit(DEBIT).getSW());
            equal("the state behind it", AFTER, state(card));
        }
    }

    static void testDebitAtEachCut() throws Exception {
        sweep();
    }

    /** The recovery behind each cut is cut, too. */
    static void testDebitAtEachCutOfItsRecovery() throws Exception {
        for (int writes = 0; writes <= 5; writes++) {
            sweep(writes);
        }
    }

    /** Cuts the power after 0 writes of the debit, after 1, and so on, until the debit is not cut. Nothing of a cut one may be left. */
    private static void sweep(int... recoveries) throws Exception {
        ResponseAPDU response = null;
        for (int writes = 0; response == null; writes++) {
            try (Jcard card = new Jcard(program, image)) {
                credit(card);
                response = card.tear(writes, DEBIT, recoveries);
                select(card);
                equal("the state after " + writes + " writes", response == null ? BEFORE : AFTER, state(card));
            }
        }
        equal("the debit", 0x9000, response.getSW());
    }

    /** Tells the PIN of the purse, and puts 500 into it. */
    private static void credit(Jcard card) throws CardException {
        select(card);
        byte[] pin = "1234".getBytes(StandardCharsets.US_ASCII);
        equal("VERIFY", 0x9000, card.transmit(new CommandAPDU(0x80, 0x20, 0, 0, pin)).getSW());
        equal("CREDIT", 0x9000, card.transmit(new CommandAPDU(0x80, 0x30, 0, 0, new byte[] {1, (byte) 0xF4})).getSW());
    }

    private static void select(Jcard card) throws CardException {
        equal("SELECT", 0x9000, card.transmit(new CommandAPDU(0x00, 0xA4, 0x04, 0x00, PURSE)).getSW());
    }

    /** The balance, the number of changes, and the newest line of the log. */
    private static String state(Jcard card) throws CardException {
        byte[] balance = card.transmit(new CommandAPDU(0x80, 0x50, 0, 0)).getData();
        byte[] line = card.transmit(new CommandAPDU(0x80, 0x60, 0, 0)).getData();
        return String.format("%d after %d changes, the last one %d to %d", at(balance, 0), at(balance, 2), at(line, 0), at(line, 2));
    }

    private static short at(byte[] data, int place) {
        return (short) (data[place] << 8 | data[place + 1] & 0xFF);
    }

    private static void equal(String what, Object wanted, Object got) {
        if (!wanted.equals(got)) {
            throw new AssertionError(what + ": " + got + ", not " + wanted);
        }
    }
}
