import java.nio.file.Path;
import java.util.HexFormat;
import javax.smartcardio.CardException;
import javax.smartcardio.CommandAPDU;
import javax.smartcardio.ResponseAPDU;

/** Tests of the ticket: java TicketTest PROGRAM IMAGE, where IMAGE is of a card that has the ticket. */
public final class TicketTest {
    private static final HexFormat HEX = HexFormat.of();
    private static final byte[] TICKET = {(byte) 0xF0, 't', 'i', 'c', 'k', 'e', 't', 0x01};
    private static final byte[] KEY = HEX.parseHex("000102030405060708090a0b0c0d0e0f");
    private static final CommandAPDU PUT_KEY = new CommandAPDU(0x80, 0xD8, 0, 0, HEX.parseHex("000102030405060708090a0b0c0d0e0f" + "03e8"));
    private static final byte[] OF_TERMINAL = HEX.parseHex("a0a1a2a3a4a5a6a7");
    private static final CommandAPDU CHALLENGE = new CommandAPDU(0x00, 0x84, 0, 0, 8);
    private static final int STATION = 7;
    private static final String BEFORE = "10 trips, last from 0, after 1 changes";
    private static final String AFTER = "9 trips, last from 7, after 2 changes";

    private static Path program;
    private static Path image;

    public static void main(String[] words) throws Exception {
        program = Path.of(words[0]);
        image = Path.of(words[1]);
        testRide();
        testTerminalWithoutTheKey();
        testWrongMac();
        testSessionAgainAfterReset();
        testRideAtEachCut();
        System.out.println("5 tests passed");
    }

    static void testRide() throws Exception {
        try (Jcard card = new Jcard(program, image)) {
            Gate gate = begin(card);
            ResponseAPDU response = card.transmit(gate.command(Gate.RIDE, STATION, 1));
            equal("the ride", 0x9000, response.getSW());
            equal("the state in the answer", AFTER, gate.state(response.getData()));
            equal("the state after it", AFTER, state(card));
        }
    }

    static void testTerminalWithoutTheKey() throws Exception {
        try (Jcard card = new Jcard(program, image)) {
            begin(card);
            Gate gate = new Gate(new byte[16], card.transmit(CHALLENGE).getData(), OF_TERMINAL);
            equal("the authentication", 0x6300, card.transmit(gate.authentication()).getSW());
            equal("the ride", 0x6982, card.transmit(gate.command(Gate.RIDE, STATION, 1)).getSW());
            equal("the state after it", BEFORE, state(card));
        }
    }

    /** The MAC of another command. It ends the session. */
    static void testWrongMac() throws Exception {
        try (Jcard card = new Jcard(program, image)) {
            Gate gate = begin(card);
            byte[] command = gate.command(Gate.RIDE, STATION, 1).getBytes();
            command[1] = Gate.ADD;
            equal("the altered command", 0x6982, card.transmit(new CommandAPDU(command)).getSW());
            equal("the command itself", 0x6982, card.transmit(gate.command(Gate.RIDE, STATION, 1)).getSW());
            equal("the state after it", BEFORE, state(card));
        }
    }

    /** After a reset the card's challenge comes again, and so does the session's key; the number of changes does not. */
    static void testSessionAgainAfterReset() throws Exception {
        try (Jcard card = new Jcard(program, image)) {
            Gate gate = begin(card);
            CommandAPDU command = gate.command(Gate.RIDE, STATION, 1);
            equal("the ride", 0x9000, card.transmit(command).getSW());
            card.powerUp();
            select(card);
            card.transmit(CHALLENGE);
            equal("the same proof of the card", true, gate.isProof(card.transmit(gate.authentication()).getData()));
            equal("the same ride", 0x6982, card.transmit(command).getSW());
            equal("the state after it", AFTER, state(card));
        }
    }

    /** Cuts the power after 0 writes of the ride, after 1, and so on, until the ride is not cut. Nothing of a cut one may be left. */
    static void testRideAtEachCut() throws Exception {
        ResponseAPDU response = null;
        for (int writes = 0; response == null; writes++) {
            try (Jcard card = new Jcard(program, image)) {
                response = card.tear(writes, begin(card).command(Gate.RIDE, STATION, 1));
                select(card);
                equal("the state after " + writes + " writes", response == null ? BEFORE : AFTER, state(card));
            }
        }
        equal("the ride", 0x9000, response.getSW());
    }

    /** A session of a new ticket with ten trips. */
    private static Gate begin(Jcard card) throws Exception {
        select(card);
        equal("PUT KEY", 0x9000, card.transmit(PUT_KEY).getSW());
        Gate gate = new Gate(KEY, card.transmit(CHALLENGE).getData(), OF_TERMINAL);
        equal("the proof of the card", true, gate.isProof(card.transmit(gate.authentication()).getData()));
        equal("the state after ADD", BEFORE, gate.state(card.transmit(gate.command(Gate.ADD, 10, 0)).getData()));
        return gate;
    }

    private static void select(Jcard card) throws CardException {
        equal("SELECT", 0x9000, card.transmit(new CommandAPDU(0x00, 0xA4, 0x04, 0x00, TICKET)).getSW());
    }

    private static String state(Jcard card) throws CardException {
        return Gate.told(card.transmit(new CommandAPDU(0x80, 0x30, 0, 0)).getData());
    }

    private static void equal(String what, Object wanted, Object got) {
        if (!wanted.equals(got)) {
            throw new AssertionError(what + ": " + got + ", not " + wanted);
        }
    }
}
