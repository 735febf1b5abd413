package ticket;

import javacard.framework.APDU;
import javacard.framework.Applet;
import javacard.framework.ISO7816;
import javacard.framework.ISOException;
import javacard.framework.JCSystem;
import javacard.framework.Util;
import javacard.security.AESKey;
import javacard.security.KeyBuilder;
import javacard.security.RandomData;
import javacard.security.Signature;

/**
 * A ticket for trips, which only a terminal that has its key changes.
 *
 * Terminal and card authenticate each other by MACs (AES CMAC) over a challenge of each, and compute a session's key from the same
 * challenges. A change has a MAC by the session's key over the number of changes so far, the command's header and the value. So a command
 * that was altered, or is sent again, is refused, also after a reset, where challenges may come again. The card's answer has the state after
 * the change and a MAC over it, by which a gate knows that the trip is taken. Commands and answers differ in length, so no MAC of one is
 * that of the other.
 *
 * A change is a transaction: after a cut all of it is as it was, or all is changed. A session ends by a reset, a deselection, a wrong MAC
 * and a new challenge.
 *
 *   80 D8 PUT KEY              with a key, 16 bytes, and the number of changes that it serves for, a short, as data, once
 *   00 84 GET CHALLENGE        answers the card's challenge, 8 bytes
 *   00 82 MUTUAL AUTHENTICATE  with the terminal's challenge, 8 bytes, and its MAC, 16 bytes, as data: answers the card's MAC
 *   80 10 ADD                  with a number of trips, a short, and the command's MAC as data
 *   80 20 RIDE                 with a station, a short, and the command's MAC as data: takes one trip
 *   80 30 STATE                answers the trips that are left, the last station and the number of changes, three shorts
 * ADD and RIDE answer as STATE does, and a MAC.
 */
public class Ticket extends Applet {
    private static final short PUT_KEY = (short) 0x80D8;
    private static final short GET_CHALLENGE = 0x0084;
    private static final short MUTUAL_AUTHENTICATE = 0x0082;
    private static final short ADD = (short) 0x8010;
    private static final short RIDE = (short) 0x8020;
    private static final short STATE = (short) 0x8030;

    private static final short SW_WRONG_PROOF = 0x6300;
    private static final short SW_NO_TRIPS = 0x6A84;

    private static final short KEY_SIZE = 16;
    private static final short MAC_SIZE = 16;
    private static final short CHALLENGE_SIZE = 8;
    private static final short VALUE_SIZE = 2;
    private static final short STATE_SIZE = 6;
    private static final short COUNTER_SIZE = 2;
    private static final short MOST_TRIPS = 1000;

    // The message of an authentication: what its MAC is for, and both challenges. After it there is room for a session's key.
    private static final byte PURPOSE = 0;
    private static final byte OF_CARD = 1;
    private static final byte OF_TERMINAL = 9;
    private static final byte SIZE = 17;

    // Purposes, so that no MAC serves for another one. It is the first while a challenge waits for its terminal.
    private static final byte NONE = 0;
    private static final byte PROOF_OF_TERMINAL = 1;
    private static final byte PROOF_OF_CARD = 2;
    private static final byte KEY_OF_SESSION = 3;

    private final RandomData random = RandomData.getInstance(RandomData.ALG_SECURE_RANDOM);
    private final byte[] message = JCSystem.makeTransientByteArray((short) (SIZE + KEY_SIZE), JCSystem.CLEAR_ON_DESELECT);
    private final AESKey key = (AESKey) KeyBuilder.buildKey(KeyBuilder.TYPE_AES, KeyBuilder.LENGTH_AES_128, false);
    private final AESKey sessionKey =
        (AESKey) KeyBuilder.buildKey(KeyBuilder.TYPE_AES_TRANSIENT_DESELECT, KeyBuilder.LENGTH_AES_128, false);
    // One for each key and mode, initialized when the key is set: init writes persistent memory, so ADD and RIDE do without it.
    private final Signature terminalProofs = Signature.getInstance(Signature.ALG_AES_CMAC_128, false);
    private final Signature cardMacs = Signature.getInstance(Signature.ALG_AES_CMAC_128, false);
    private final Signature commandMacs = Signature.getInstance(Signature.ALG_AES_CMAC_128, false);
    private final Signature answerMacs = Signature.getInstance(Signature.ALG_AES_CMAC_128, false);
    private short trips;
    private short station;
    private short changes;
    private short mostChanges;

    public static void install(byte[] bArray, short bOffset, byte bLength) {
        new Ticket().register(bArray, (short) (bOffset + 1), bArray[bOffset]);
    }

    public void process(APDU apdu) {
        if (selectingApplet()) {
            return;
        }
        byte[] buffer = apdu.getBuffer();
        switch (Util.getShort(buffer, ISO7816.OFFSET_CLA)) {
            case PUT_KEY:
                receive(apdu, (short) (KEY_SIZE + COUNTER_SIZE));
                putKey(buffer);
                break;
            case GET_CHALLENGE:
                challenge(buffer);
                apdu.setOutgoingAndSend((short) 0, CHALLENGE_SIZE);
                break;
            case MUTUAL_AUTHENTICATE:
                receive(apdu, (short) (CHALLENGE_SIZE + MAC_SIZE));
                authenticate(buffer);
                apdu.setOutgoingAndSend((short) 0, MAC_SIZE);
                break;
            case ADD:
                receive(apdu, (short) (VALUE_SIZE + MAC_SIZE));
                add(value(buffer), buffer);
                apdu.setOutgoingAndSend((short) 0, (short) (STATE_SIZE + MAC_SIZE));
                break;
            case RIDE:
                receive(apdu, (short) (VALUE_SIZE + MAC_SIZE));
                ride(value(buffer), buffer);
                apdu.setOutgoingAndSend((short) 0, (short) (STATE_SIZE + MAC_SIZE));
                break;
            case STATE:
                putState(buffer);
                apdu.setOutgoingAndSend((short) 0, STATE_SIZE);
                break;
            default:
                ISOException.throwIt(ISO7816.SW_INS_NOT_SUPPORTED);
        }
    }

    private static void receive(APDU apdu, short length) {
        if (apdu.setIncomingAndReceive() != length) {
            ISOException.throwIt(ISO7816.SW_WRONG_LENGTH);
        }
    }

    /** The key is set with all that is initialized by it, so that a cut leaves a card without a key or one that can be used. */
    private void putKey(byte[] buffer) {
        if (key.isInitialized()) {
            ISOException.throwIt(ISO7816.SW_CONDITIONS_NOT_SATISFIED);
        }
        JCSystem.beginTransaction();
        key.setKey(buffer, ISO7816.OFFSET_CDATA);
        terminalProofs.init(key, Signature.MODE_VERIFY);
        cardMacs.init(key, Signature.MODE_SIGN);
        mostChanges = Util.getShort(buffer, (short) (ISO7816.OFFSET_CDATA + KEY_SIZE));
        JCSystem.commitTransaction();
    }

    private void challenge(byte[] buffer) {
        if (!key.isInitialized()) {
            ISOException.throwIt(ISO7816.SW_CONDITIONS_NOT_SATISFIED);
        }
        sessionKey.clearKey();
        random.generateData(message, OF_CARD, CHALLENGE_SIZE);
        message[PURPOSE] = PROOF_OF_TERMINAL;
        Util.arrayCopy(message, OF_CARD, buffer, (short) 0, CHALLENGE_SIZE);
    }

    /** A challenge serves one attempt. The card proves itself only to a terminal that did so first. */
    private void authenticate(byte[] buffer) {
        if (message[PURPOSE] != PROOF_OF_TERMINAL) {
            ISOException.throwIt(ISO7816.SW_CONDITIONS_NOT_SATISFIED);
        }
        Util.arrayCopy(buffer, ISO7816.OFFSET_CDATA, message, OF_TERMINAL, CHALLENGE_SIZE);
        short mac = (short) (ISO7816.OFFSET_CDATA + CHALLENGE_SIZE);
        boolean isProved = terminalProofs.verify(message, (short) 0, SIZE, buffer, mac, MAC_SIZE);
        message[PURPOSE] = NONE;
        if (!isProved) {
            ISOException.throwIt(SW_WRONG_PROOF);
        }
        beginSession();
        sign(PROOF_OF_CARD, buffer, (short) 0);
    }

    private void beginSession() {
        sign(KEY_OF_SESSION, message, SIZE);
        sessionKey.setKey(message, SIZE);
        Util.arrayFill(message, SIZE, KEY_SIZE, (byte) 0);
        commandMacs.init(sessionKey, Signature.MODE_VERIFY);
        answerMacs.init(sessionKey, Signature.MODE_SIGN);
    }

    /** The MAC by the card's key over both challenges, for a purpose. */
    private void sign(byte purpose, byte[] to, short offset) {
        message[PURPOSE] = purpose;
        cardMacs.sign(message, (short) 0, SIZE, to, offset);
        message[PURPOSE] = NONE;
    }

    /** The value in a command, which has the MAC that belongs to it as the next change. */
    private short value(byte[] buffer) {
        if (!sessionKey.isInitialized()) {
            ISOException.throwIt(ISO7816.SW_SECURITY_STATUS_NOT_SATISFIED);
        }
        Util.setShort(message, SIZE, changes);
        commandMacs.update(message, SIZE, COUNTER_SIZE);
        short mac = (short) (ISO7816.OFFSET_CDATA + VALUE_SIZE);
        if (!commandMacs.verify(buffer, ISO7816.OFFSET_CLA, mac, buffer, mac, MAC_SIZE)) {
            sessionKey.clearKey();
            ISOException.throwIt(ISO7816.SW_SECURITY_STATUS_NOT_SATISFIED);
        }
        return Util.getShort(buffer, ISO7816.OFFSET_CDATA);
    }

    private void add(short added, byte[] buffer) {
        if (added <= 0 || added > (short) (MOST_TRIPS - trips)) {
            ISOException.throwIt(ISO7816.SW_WRONG_DATA);
        }
        change((short) (trips + added), station, buffer);
    }

    private void ride(short from, byte[] buffer) {
        if (trips == 0) {
            ISOException.throwIt(SW_NO_TRIPS);
        }
        change((short) (trips - 1), from, buffer);
    }

    /** The answer is complete before the change is, so that little is left to be cut between them. */
    private void change(short newTrips, short newStation, byte[] buffer) {
        if (changes == mostChanges) {
            ISOException.throwIt(ISO7816.SW_CONDITIONS_NOT_SATISFIED);
        }
        JCSystem.beginTransaction();
        trips = newTrips;
        station = newStation;
        changes++;
        putState(buffer);
        answerMacs.sign(buffer, (short) 0, STATE_SIZE, buffer, STATE_SIZE);
        JCSystem.commitTransaction();
    }

    private void putState(byte[] buffer) {
        Util.setShort(buffer, (short) 0, trips);
        Util.setShort(buffer, (short) 2, station);
        Util.setShort(buffer, (short) 4, changes);
    }
}
