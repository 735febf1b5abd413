package identity;

import javacard.framework.APDU;
import javacard.framework.Applet;
import javacard.framework.ISO7816;
import javacard.framework.ISOException;
import javacard.framework.JCSystem;
import javacard.framework.OwnerPIN;
import javacard.framework.Util;
import javacard.security.ECKey;
import javacard.security.ECPrivateKey;
import javacard.security.ECPublicKey;
import javacard.security.KeyBuilder;
import javacard.security.Signature;

/**
 * An identity card: it signs a terminal's challenge (ECDSA on P-256 with SHA-256) by a private key that its issuer put there, and that no
 * command reads.
 *
 * The two keys of a pair are set as one change. So wherever the power is cut, the card has the whole pair of before or the whole new one,
 * and the public key that it shows is that of its signatures.
 *
 *   00 20 VERIFY                 with the PIN, 4 to 8 digits in ASCII, as data; the first PIN is 0000
 *   00 24 CHANGE PIN             with the new PIN as data, after the right one
 *   80 D8 PUT KEY PAIR           with the private number, 32 bytes, and the public point, 65 bytes, as data, after the right PIN
 *   00 CA GET PUBLIC KEY         answers the public point
 *   00 88 INTERNAL AUTHENTICATE  with a challenge of 8 to 64 bytes as data, after the right PIN, which serves for one signature: answers the
 *                                signature, a DER SEQUENCE of two INTEGERs, over what this card is (the name below) and the challenge
 *
 * What such cards have besides is left out: certificates, a PUK, several keys, files.
 */
public class Identity extends Applet {
    private static final short VERIFY = 0x0020;
    private static final short CHANGE_PIN = 0x0024;
    private static final short PUT_KEY_PAIR = (short) 0x80D8;
    private static final short GET_PUBLIC_KEY = 0x00CA;
    private static final short INTERNAL_AUTHENTICATE = 0x0088;

    private static final short SW_WRONG_PIN = 0x63C0; // and the tries that are left

    private static final byte TRIES = 3;
    private static final byte SHORTEST_PIN = 4;
    private static final byte LONGEST_PIN = 8;
    private static final short SHORTEST_CHALLENGE = 8;
    private static final short LONGEST_CHALLENGE = 64;
    private static final short NUMBER_LENGTH = 32;
    private static final short POINT_LENGTH = 65;

    /** What each signed message begins with, so that no challenge can be a message of another protocol. */
    private static final byte[] NAME = {'j', 'c', 'a', 'r', 'd', '-', 'i', 'd', 'e', 'n', 't', 'i', 't', 'y'};

    // The curve P-256 (SEC 2, 2.4.2).
    private static final byte[] FIELD = {
        (byte) 0xFF, (byte) 0xFF, (byte) 0xFF, (byte) 0xFF, 0x00, 0x00, 0x00, 0x01, 0x00, 0x00, 0x00, 0x00, 0x00, 0x00, 0x00, 0x00,
        0x00, 0x00, 0x00, 0x00, (byte) 0xFF, (byte) 0xFF, (byte) 0xFF, (byte) 0xFF, (byte) 0xFF, (byte) 0xFF, (byte) 0xFF, (byte) 0xFF, (byte) 0xFF, (byte) 0xFF, (byte) 0xFF, (byte) 0xFF,
    };
    private static final byte[] A = {
        (byte) 0xFF, (byte) 0xFF, (byte) 0xFF, (byte) 0xFF, 0x00, 0x00, 0x00, 0x01, 0x00, 0x00, 0x00, 0x00, 0x00, 0x00, 0x00, 0x00,
        0x00, 0x00, 0x00, 0x00, (byte) 0xFF, (byte) 0xFF, (byte) 0xFF, (byte) 0xFF, (byte) 0xFF, (byte) 0xFF, (byte) 0xFF, (byte) 0xFF, (byte) 0xFF, (byte) 0xFF, (byte) 0xFF, (byte) 0xFC,
    };
    private static final byte[] B = {
        0x5A, (byte) 0xC6, 0x35, (byte) 0xD8, (byte) 0xAA, 0x3A, (byte) 0x93, (byte) 0xE7, (byte) 0xB3, (byte) 0xEB, (byte) 0xBD, 0x55, 0x76, (byte) 0x98, (byte) 0x86, (byte) 0xBC,
        0x65, 0x1D, 0x06, (byte) 0xB0, (byte) 0xCC, 0x53, (byte) 0xB0, (byte) 0xF6, 0x3B, (byte) 0xCE, 0x3C, 0x3E, 0x27, (byte) 0xD2, 0x60, 0x4B,
    };
    private static final byte[] BASE_POINT = {
        0x04,
        0x6B, 0x17, (byte) 0xD1, (byte) 0xF2, (byte) 0xE1, 0x2C, 0x42, 0x47, (byte) 0xF8, (byte) 0xBC, (byte) 0xE6, (byte) 0xE5, 0x63, (byte) 0xA4, 0x40, (byte) 0xF2,
        0x77, 0x03, 0x7D, (byte) 0x81, 0x2D, (byte) 0xEB, 0x33, (byte) 0xA0, (byte) 0xF4, (byte) 0xA1, 0x39, 0x45, (byte) 0xD8, (byte) 0x98, (byte) 0xC2, (byte) 0x96,
        0x4F, (byte) 0xE3, 0x42, (byte) 0xE2, (byte) 0xFE, 0x1A, 0x7F, (byte) 0x9B, (byte) 0x8E, (byte) 0xE7, (byte) 0xEB, 0x4A, 0x7C, 0x0F, (byte) 0x9E, 0x16,
        0x2B, (byte) 0xCE, 0x33, 0x57, 0x6B, 0x31, 0x5E, (byte) 0xCE, (byte) 0xCB, (byte) 0xB6, 0x40, 0x68, 0x37, (byte) 0xBF, 0x51, (byte) 0xF5,
    };
    private static final byte[] ORDER = {
        (byte) 0xFF, (byte) 0xFF, (byte) 0xFF, (byte) 0xFF, 0x00, 0x00, 0x00, 0x00, (byte) 0xFF, (byte) 0xFF, (byte) 0xFF, (byte) 0xFF, (byte) 0xFF, (byte) 0xFF, (byte) 0xFF, (byte) 0xFF,
        (byte) 0xBC, (byte) 0xE6, (byte) 0xFA, (byte) 0xAD, (byte) 0xA7, 0x17, (byte) 0x9E, (byte) 0x84, (byte) 0xF3, (byte) 0xB9, (byte) 0xCA, (byte) 0xC2, (byte) 0xFC, 0x63, 0x25, 0x51,
    };

    private final OwnerPIN pin = new OwnerPIN(TRIES, LONGEST_PIN);
    private final ECPrivateKey privateKey =
        (ECPrivateKey) KeyBuilder.buildKey(KeyBuilder.TYPE_EC_FP_PRIVATE, KeyBuilder.LENGTH_EC_FP_256, false);
    private final ECPublicKey publicKey =
        (ECPublicKey) KeyBuilder.buildKey(KeyBuilder.TYPE_EC_FP_PUBLIC, KeyBuilder.LENGTH_EC_FP_256, false);
    private final Signature signature = Signature.getInstance(Signature.ALG_ECDSA_SHA_256, false);

    private Identity() {
        byte[] first = {'0', '0', '0', '0'};
        pin.update(first, (short) 0, SHORTEST_PIN);
        setCurve(privateKey);
        setCurve(publicKey);
    }

    public static void install(byte[] bArray, short bOffset, byte bLength) {
        new Identity().register(bArray, (short) (bOffset + 1), bArray[bOffset]);
    }

    private static void setCurve(ECKey key) {
        key.setFieldFP(FIELD, (short) 0, NUMBER_LENGTH);
        key.setA(A, (short) 0, NUMBER_LENGTH);
        key.setB(B, (short) 0, NUMBER_LENGTH);
        key.setG(BASE_POINT, (short) 0, POINT_LENGTH);
        key.setR(ORDER, (short) 0, NUMBER_LENGTH);
        key.setK((short) 1);
    }

    public void deselect() {
        pin.reset();
    }

    public void process(APDU apdu) {
        if (selectingApplet()) {
            return;
        }
        byte[] buffer = apdu.getBuffer();
        switch (Util.getShort(buffer, ISO7816.OFFSET_CLA)) {
            case VERIFY:
                verify(buffer, receivePin(apdu));
                break;
            case CHANGE_PIN:
                change(buffer, receivePin(apdu));
                break;
            case PUT_KEY_PAIR:
                put(buffer, apdu.setIncomingAndReceive());
                break;
            case GET_PUBLIC_KEY:
                apdu.setOutgoingAndSend((short) 0, publicPoint(buffer));
                break;
            case INTERNAL_AUTHENTICATE:
                apdu.setOutgoingAndSend((short) 0, sign(buffer, apdu.setIncomingAndReceive()));
                break;
            default:
                ISOException.throwIt(ISO7816.SW_INS_NOT_SUPPORTED);
        }
    }

    private static byte receivePin(APDU apdu) {
        short length = apdu.setIncomingAndReceive();
        if (length < SHORTEST_PIN || length > LONGEST_PIN) {
            ISOException.throwIt(ISO7816.SW_WRONG_LENGTH);
        }
        return (byte) length;
    }

    private void requirePin() {
        if (!pin.isValidated()) {
            ISOException.throwIt(ISO7816.SW_SECURITY_STATUS_NOT_SATISFIED);
        }
    }

    private void verify(byte[] buffer, byte length) {
        if (pin.getTriesRemaining() == 0) {
            ISOException.throwIt(ISO7816.SW_FILE_INVALID);
        }
        if (!pin.check(buffer, ISO7816.OFFSET_CDATA, length)) {
            ISOException.throwIt((short) (SW_WRONG_PIN | pin.getTriesRemaining()));
        }
    }

    private void change(byte[] buffer, byte length) {
        requirePin();
        pin.update(buffer, ISO7816.OFFSET_CDATA, length);
    }

    private void put(byte[] buffer, short length) {
        requirePin();
        if (length != (short) (NUMBER_LENGTH + POINT_LENGTH)) {
            ISOException.throwIt(ISO7816.SW_WRONG_LENGTH);
        }
        JCSystem.beginTransaction();
        privateKey.setS(buffer, ISO7816.OFFSET_CDATA, NUMBER_LENGTH);
        publicKey.setW(buffer, (short) (ISO7816.OFFSET_CDATA + NUMBER_LENGTH), POINT_LENGTH);
        JCSystem.commitTransaction();
    }

    /** Puts the public point at the buffer's beginning, and returns its length. */
    private short publicPoint(byte[] buffer) {
        if (!publicKey.isInitialized()) {
            ISOException.throwIt(ISO7816.SW_CONDITIONS_NOT_SATISFIED);
        }
        return publicKey.getW(buffer, (short) 0);
    }

    /** Puts the signature of the challenge at the buffer's beginning, and returns its length. */
    private short sign(byte[] buffer, short length) {
        requirePin();
        if (length < SHORTEST_CHALLENGE || length > LONGEST_CHALLENGE) {
            ISOException.throwIt(ISO7816.SW_WRONG_LENGTH);
        }
        if (!privateKey.isInitialized()) {
            ISOException.throwIt(ISO7816.SW_CONDITIONS_NOT_SATISFIED);
        }
        pin.reset();
        signature.init(privateKey, Signature.MODE_SIGN);
        signature.update(NAME, (short) 0, (short) NAME.length);
        return signature.sign(buffer, ISO7816.OFFSET_CDATA, length, buffer, (short) 0);
    }
}
