package payment;

import javacard.framework.APDU;
import javacard.framework.Applet;
import javacard.framework.ISO7816;
import javacard.framework.ISOException;
import javacard.framework.JCSystem;
import javacard.framework.OwnerPIN;
import javacard.framework.Util;
import javacard.security.DESKey;
import javacard.security.KeyBuilder;
import javacard.security.Signature;
import javacardx.crypto.Cipher;

/**
 * A payment card that answers each transaction by an application cryptogram, in the manner of EMV.
 *
 * The application transaction counter (ATC) is counted for good before a key or a cryptogram is computed from it. So no ATC is ever used
 * twice, wherever the power is cut. The transaction's session key is the master key's encipherment of the ATC by triple DES, and the
 * cryptogram is a MAC by it (ISO 9797-1, algorithm 3, padding method 2) over the terminal's data, the ATC and the card's own results.
 *
 * The card approves a few transactions in a row offline, after the right PIN. An issuer that approves one that went online sets their
 * number back, which is counted together with the ATC.
 *
 *   80 E2 STORE DATA             with the master key, 16 bytes, the PIN block, 8 bytes, and the last ATC, a short, as data, once
 *   00 20 VERIFY                 with a PIN block as data: 2412 34FF FFFF FFFF is that of the PIN 1234
 *   80 AE GENERATE AC            with P1 as what the terminal asks for, 80 to go online (ARQC), 40 to approve (TC) or 00 to decline (AAC),
 *                                and 29 bytes as data: amount, other amount, country, terminal verification results, currency, date, type
 *                                and unpredictable number. It answers 80, a length, which of the three it is, the ATC, the cryptogram, and
 *                                two bytes of its results: which of the three, and 1 if the PIN was right; how many were approved offline
 *   00 82 EXTERNAL AUTHENTICATE  with the issuer's cryptogram (ARPC), 8 bytes, and its response code, 2 bytes, as data, after an ARQC
 *   80 50 STATE                  answers the ATC, how many were approved offline since the issuer's last approval, and the tries of the PIN
 *
 * What EMV has besides is left out: files and data objects, GET PROCESSING OPTIONS, the second GENERATE AC, scripts of the issuer.
 */
public class Payment extends Applet {
    private static final short STORE_DATA = (short) 0x80E2;
    private static final short VERIFY = 0x0020;
    private static final short GENERATE_AC = (short) 0x80AE;
    private static final short EXTERNAL_AUTHENTICATE = 0x0082;
    private static final short STATE = (short) 0x8050;

    private static final short SW_WRONG_PIN = 0x63C0; // and the tries that are left
    private static final short SW_WRONG_CRYPTOGRAM = 0x6300;

    private static final byte ARQC = (byte) 0x80; // authorisation request: goes online
    private static final byte TC = 0x40; // transaction certificate: approved
    private static final byte AAC = 0x00; // application authentication cryptogram: declined
    private static final byte PIN_WAS_RIGHT = 0x01;
    private static final short APPROVED = 0x3030; // the response code "00"

    private static final short KEY_SIZE = 16;
    private static final byte PIN_SIZE = 8;
    private static final byte TRIES = 3;
    private static final short DATA_SIZE = 29;
    private static final short RESULTS_SIZE = 4; // the ATC among them
    private static final short CRYPTOGRAM_SIZE = 8;
    private static final short CODE_SIZE = 2;
    private static final short COUNTER_SIZE = 2;
    private static final short STATE_SIZE = 4;
    private static final byte FORMAT = (byte) 0x80; // of an answer: a primitive data object with a length
    private static final byte MOST_OFFLINE = 2;

    // Places in what is kept of a transaction: its cryptogram, and whether that waits for the issuer's.
    private static final byte CRYPTOGRAM = 0;
    private static final byte IS_ONLINE = 8;

    private final byte[] transaction = JCSystem.makeTransientByteArray((short) 9, JCSystem.CLEAR_ON_DESELECT);
    private final byte[] work = JCSystem.makeTransientByteArray(KEY_SIZE, JCSystem.CLEAR_ON_DESELECT);
    private final OwnerPIN pin = new OwnerPIN(TRIES, PIN_SIZE);
    private final DESKey masterKey = (DESKey) KeyBuilder.buildKey(KeyBuilder.TYPE_DES, KeyBuilder.LENGTH_DES3_2KEY, false);
    private final DESKey sessionKey =
        (DESKey) KeyBuilder.buildKey(KeyBuilder.TYPE_DES_TRANSIENT_DESELECT, KeyBuilder.LENGTH_DES3_2KEY, false);
    private final Cipher derivation = Cipher.getInstance(Cipher.ALG_DES_ECB_NOPAD, false);
    private final Cipher issuer = Cipher.getInstance(Cipher.ALG_DES_ECB_NOPAD, false);
    private final Signature cryptograms = Signature.getInstance(Signature.ALG_DES_MAC8_ISO9797_1_M2_ALG3, false);
    private short atc;
    private short lastAtc;
    private byte offline;

    public static void install(byte[] bArray, short bOffset, byte bLength) {
        new Payment().register(bArray, (short) (bOffset + 1), bArray[bOffset]);
    }

    public void deselect() {
        pin.reset();
    }

    public void process(APDU apdu) {
        if (selectingApplet()) {
            return;
        }
        byte[] buffer = apdu.getBuffer();
        switch (Util.getShort(buffer, ISO7816.OFFSET_CLA)) {
            case STORE_DATA:
                receive(apdu, (short) (KEY_SIZE + PIN_SIZE + COUNTER_SIZE));
                store(buffer);
                break;
            case VERIFY:
                receive(apdu, PIN_SIZE);
                verify(buffer);
                break;
            case GENERATE_AC:
                receive(apdu, DATA_SIZE);
                apdu.setOutgoingAndSend((short) 0, generate(buffer));
                break;
            case EXTERNAL_AUTHENTICATE:
                receive(apdu, (short) (CRYPTOGRAM_SIZE + CODE_SIZE));
                authenticate(buffer);
                break;
            case STATE:
                Util.setShort(buffer, (short) 0, atc);
                buffer[2] = offline;
                buffer[3] = pin.getTriesRemaining();
                apdu.setOutgoingAndSend((short) 0, STATE_SIZE);
                break;
            default:
                ISOException.throwIt(ISO7816.SW_INS_NOT_SUPPORTED);
        }
    }

    private static void receive(APDU apdu, short length) {
        if (apdu.setIncomingAndReceive() != length) {
            ISOException.throwIt(ISO7816.SW_WRONG_LENGTH);
        }
    }

    /** The key comes with all that hangs on it, so that a cut leaves a card that is personalized, or one that can be. */
    private void store(byte[] buffer) {
        if (masterKey.isInitialized()) {
            ISOException.throwIt(ISO7816.SW_CONDITIONS_NOT_SATISFIED);
        }
        JCSystem.beginTransaction();
        masterKey.setKey(buffer, ISO7816.OFFSET_CDATA);
        derivation.init(masterKey, Cipher.MODE_ENCRYPT);
        pin.update(buffer, (short) (ISO7816.OFFSET_CDATA + KEY_SIZE), PIN_SIZE);
        lastAtc = Util.getShort(buffer, (short) (ISO7816.OFFSET_CDATA + KEY_SIZE + PIN_SIZE));
        JCSystem.commitTransaction();
    }

    private void requirePersonalization() {
        if (!masterKey.isInitialized()) {
            ISOException.throwIt(ISO7816.SW_CONDITIONS_NOT_SATISFIED);
        }
    }

    private void verify(byte[] buffer) {
        requirePersonalization();
        if (pin.getTriesRemaining() == 0) {
            ISOException.throwIt(ISO7816.SW_FILE_INVALID);
        }
        if (!pin.check(buffer, ISO7816.OFFSET_CDATA, PIN_SIZE)) {
            ISOException.throwIt((short) (SW_WRONG_PIN | pin.getTriesRemaining()));
        }
    }

    /** Puts the answer at the buffer's beginning, and returns its length. */
    private short generate(byte[] buffer) {
        requirePersonalization();
        byte kind = decided(buffer[ISO7816.OFFSET_P1]);
        count(kind);
        deriveSessionKey();
        short results = (short) (ISO7816.OFFSET_CDATA + DATA_SIZE);
        Util.setShort(buffer, results, atc);
        buffer[(short) (results + 2)] = pin.isValidated() ? (byte) (kind | PIN_WAS_RIGHT) : kind;
        buffer[(short) (results + 3)] = offline;
        cryptograms.sign(buffer, ISO7816.OFFSET_CDATA, (short) (DATA_SIZE + RESULTS_SIZE), transaction, CRYPTOGRAM);
        transaction[IS_ONLINE] = kind == ARQC ? (byte) 1 : 0;
        buffer[0] = FORMAT;
        buffer[1] = (byte) (1 + RESULTS_SIZE + CRYPTOGRAM_SIZE);
        buffer[2] = kind;
        short at = Util.arrayCopy(buffer, results, buffer, (short) 3, COUNTER_SIZE);
        at = Util.arrayCopy(transaction, CRYPTOGRAM, buffer, at, CRYPTOGRAM_SIZE);
        return Util.arrayCopy(buffer, (short) (results + 2), buffer, at, (short) 2);
    }

    /** What the card answers to what is asked for: it goes online where it does not approve. */
    private byte decided(byte asked) {
        switch (asked) {
            case TC:
                return pin.isValidated() && offline < MOST_OFFLINE ? TC : ARQC;
            case ARQC:
            case AAC:
                return asked;
            default:
                ISOException.throwIt(ISO7816.SW_INCORRECT_P1P2);
                return AAC;
        }
    }

    /** Takes the next ATC, and counts what is approved offline with it. */
    private void count(byte kind) {
        if (atc == lastAtc) {
            ISOException.throwIt(ISO7816.SW_CONDITIONS_NOT_SATISFIED);
        }
        JCSystem.beginTransaction();
        atc++;
        if (kind == TC) {
            offline++;
        }
        JCSystem.commitTransaction();
    }

    /** EMV's common session key: two blocks that begin with the ATC, which the master key enciphers. */
    private void deriveSessionKey() {
        Util.arrayFill(work, (short) 0, KEY_SIZE, (byte) 0);
        Util.setShort(work, (short) 0, atc);
        work[2] = (byte) 0xF0;
        Util.setShort(work, (short) 8, atc);
        work[10] = 0x0F;
        derivation.doFinal(work, (short) 0, KEY_SIZE, work, (short) 0);
        sessionKey.setKey(work, (short) 0);
        Util.arrayFill(work, (short) 0, KEY_SIZE, (byte) 0);
        cryptograms.init(sessionKey, Signature.MODE_SIGN);
        issuer.init(sessionKey, Cipher.MODE_ENCRYPT);
    }

    /** The issuer's cryptogram is the encipherment of the card's, whose first bytes its response code changes. It has one try. */
    private void authenticate(byte[] buffer) {
        if (transaction[IS_ONLINE] == 0) {
            ISOException.throwIt(ISO7816.SW_CONDITIONS_NOT_SATISFIED);
        }
        transaction[IS_ONLINE] = 0;
        short code = (short) (ISO7816.OFFSET_CDATA + CRYPTOGRAM_SIZE);
        transaction[0] ^= buffer[code];
        transaction[1] ^= buffer[(short) (code + 1)];
        issuer.doFinal(transaction, CRYPTOGRAM, CRYPTOGRAM_SIZE, transaction, CRYPTOGRAM);
        if (Util.arrayCompare(transaction, CRYPTOGRAM, buffer, ISO7816.OFFSET_CDATA, CRYPTOGRAM_SIZE) != 0) {
            ISOException.throwIt(SW_WRONG_CRYPTOGRAM);
        }
        if (Util.getShort(buffer, code) == APPROVED) {
            offline = 0;
        }
    }
}
