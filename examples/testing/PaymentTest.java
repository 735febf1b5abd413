import java.nio.ByteBuffer;
import java.nio.file.Path;
import java.util.HexFormat;
import javax.smartcardio.CardException;
import javax.smartcardio.CommandAPDU;
import javax.smartcardio.ResponseAPDU;

/** Tests of the payment card: java PaymentTest PROGRAM IMAGE, where IMAGE is of a card that has it. */
public final class PaymentTest {
    private static final HexFormat HEX = HexFormat.of();
    private static final byte[] PAYMENT = {(byte) 0xF0, 'p', 'a', 'y', 'm', 'e', 'n', 't', 0x01};
    private static final byte[] KEY = HEX.parseHex("0123456789abcdeffedcba9876543210");
    private static final byte[] PIN = HEX.parseHex("241234ffffffffff");
    private static final byte[] LAST_ATC = HEX.parseHex("ffff");
    // 12.50 EUR in Germany on 2026-11-28, goods, an unpredictable number
    private static final byte[] DATA = HEX.parseHex("000000001250" + "000000000000" + "0276" + "0000000000" + "0978" + "261128" + "00" + "1a2b3c4d");

    private static Path program;
    private static Path image;

    public static void main(String[] words) throws Exception {
        program = Path.of(words[0]);
        image = Path.of(words[1]);
        testOnline();
        testOfflineUpToTheLimit();
        testWrongAnswersOfTheIssuer();
        testAtcAtEachCut();
        System.out.println("4 tests passed");
    }

    static void testOnline() throws Exception {
        try (Jcard card = begin()) {
            Issuer issuer = transact(card, Issuer.ARQC);
            equal("the cryptogram", "80 with ATC 1", told(issuer));
            equal("the issuer's answer", 0x9000, card.transmit(issuer.authentication(Issuer.APPROVED)).getSW());
            equal("the next cryptogram", "0 with ATC 2", told(transact(card, Issuer.AAC)));
        }
    }

    /** Two in a row, until the issuer approves one. */
    static void testOfflineUpToTheLimit() throws Exception {
        try (Jcard card = begin()) {
            equal("VERIFY", 0x9000, card.transmit(new CommandAPDU(0x00, 0x20, 0, 0x80, PIN)).getSW());
            equal("the first", "40 with ATC 1", told(transact(card, Issuer.TC)));
            equal("the second", "40 with ATC 2", told(transact(card, Issuer.TC)));
            Issuer third = transact(card, Issuer.TC);
            equal("the third", "80 with ATC 3", told(third));
            equal("the issuer's refusal", 0x9000, card.transmit(third.authentication(Issuer.DECLINED)).getSW());
            Issuer fourth = transact(card, Issuer.TC);
            equal("the fourth", "80 with ATC 4", told(fourth));
            equal("the issuer's approval", 0x9000, card.transmit(fourth.authentication(Issuer.APPROVED)).getSW());
            equal("the fifth", "40 with ATC 5", told(transact(card, Issuer.TC)));
        }
    }

    /** The issuer's cryptogram has one try, and is for one transaction. */
    static void testWrongAnswersOfTheIssuer() throws Exception {
        try (Jcard card = begin()) {
            CommandAPDU right = transact(card, Issuer.ARQC).authentication(Issuer.APPROVED);
            byte[] wrong = right.getData();
            wrong[0] ^= 1;
            equal("a wrong one", 0x6300, card.transmit(new CommandAPDU(0x00, 0x82, 0, 0, wrong)).getSW());
            equal("the right one after it", 0x6985, card.transmit(right).getSW());
            transact(card, Issuer.ARQC);
            equal("that of another transaction", 0x6300, card.transmit(right).getSW());
        }
    }

    /** Cuts the power after 0 writes of GENERATE AC, after 1, and so on, until it is not cut. The next ATC is one that nothing had. */
    static void testAtcAtEachCut() throws Exception {
        ResponseAPDU response = null;
        for (int writes = 0; response == null; writes++) {
            try (Jcard card = begin()) {
                response = card.tear(writes, generate(Issuer.ARQC));
                select(card);
                int counted = state(card)[1];
                equal("whether 0 or 1 is counted after " + writes + " writes", true, counted == 1 || counted == 0 && response == null);
                equal("the next ATC after " + writes + " writes", counted + 1, transact(card, Issuer.ARQC).atc);
            }
        }
        equal("the ATC of the answer", 1, new Issuer(KEY, DATA, response.getData()).atc);
    }

    /** A new card, personalized and selected. */
    private static Jcard begin() throws Exception {
        Jcard card = new Jcard(program, image);
        select(card);
        byte[] data = ByteBuffer.allocate(26).put(KEY).put(PIN).put(LAST_ATC).array();
        equal("STORE DATA", 0x9000, card.transmit(new CommandAPDU(0x80, 0xE2, 0, 0, data)).getSW());
        return card;
    }

    private static void select(Jcard card) throws CardException {
        equal("SELECT", 0x9000, card.transmit(new CommandAPDU(0x00, 0xA4, 0x04, 0x00, PAYMENT)).getSW());
    }

    private static CommandAPDU generate(int kind) {
        return new CommandAPDU(0x80, 0xAE, kind, 0, DATA);
    }

    /** A transaction of the card, whose cryptogram is right. */
    private static Issuer transact(Jcard card, int kind) throws Exception {
        return new Issuer(KEY, DATA, card.transmit(generate(kind)).getData());
    }

    /** The ATC in two bytes, how many were approved offline, and the tries of the PIN. */
    private static byte[] state(Jcard card) throws CardException {
        return card.transmit(new CommandAPDU(0x80, 0x50, 0, 0)).getData();
    }

    private static String told(Issuer issuer) {
        return String.format("%X with ATC %d", issuer.kind, issuer.atc);
    }

    private static void equal(String what, Object wanted, Object got) {
        if (!wanted.equals(got)) {
            throw new AssertionError(what + ": " + got + ", not " + wanted);
        }
    }
}
