package ciphers;

import javacard.framework.AID;
import javacard.framework.APDU;
import javacard.framework.Applet;
import javacard.framework.ISO7816;
import javacard.framework.ISOException;
import javacard.framework.JCSystem;
import javacard.framework.Shareable;
import javacard.framework.SystemException;
import javacard.framework.TransactionException;
import javacard.framework.Util;
import javacard.security.AESKey;
import javacard.security.CryptoException;
import javacard.security.DESKey;
import javacard.security.Key;
import javacard.security.KeyBuilder;
import javacardx.crypto.Cipher;

/**
 * Carries out the steps that the data of a command are. A step is a byte that says which, and its operands: keys and ciphers by their slots,
 * arrays by their places with an offset of two bytes. What the steps put out is the answer. An exception ends the command: the status word says
 * which, and its reason. Applets of two packages are below it.
 */
public abstract class Ciphers extends Applet implements Lender {
    /** The first byte of the status words of exceptions; the second is the reason, where there is one. */
    private static final short CRYPTO = (short) 0xC000;
    private static final short SYSTEM = (short) 0xD000;
    private static final short TRANSACTION = (short) 0xDA00;
    private static final short NULL_POINTER = (short) 0xEA00;
    private static final short SECURITY = (short) 0xEB00;
    private static final short INDEX = (short) 0xE600;

    private static final short DONE = (short) 0x9000;

    private static final short SIZE = 320;
    private static final short SLOTS = 4;
    private static final byte AT = 0;
    private static final byte LENGTH = 1;

    private final byte[] kept = new byte[SIZE];
    private final byte[] passing = JCSystem.makeTransientByteArray(SIZE, JCSystem.CLEAR_ON_RESET);
    private final byte[] steps = JCSystem.makeTransientByteArray((short) 256, JCSystem.CLEAR_ON_DESELECT);
    private final byte[] response = JCSystem.makeTransientByteArray((short) 256, JCSystem.CLEAR_ON_DESELECT);
    private final short[] cursor = JCSystem.makeTransientShortArray((short) 2, JCSystem.CLEAR_ON_DESELECT);
    private final Key[] keys = new Key[SLOTS];
    private final Cipher[] ciphers = new Cipher[SLOTS];

    public Shareable getShareableInterfaceObject(AID client, byte parameter) {
        return this;
    }

    public Key key() {
        return keys[0];
    }

    public Cipher cipher() {
        return ciphers[0];
    }

    public byte[] bytes() {
        return kept;
    }

    public void process(APDU apdu) {
        if (selectingApplet()) {
            return;
        }
        byte[] buffer = apdu.getBuffer();
        short length = apdu.setIncomingAndReceive();
        Util.arrayCopy(buffer, ISO7816.OFFSET_CDATA, steps, (short) 0, length);
        cursor[AT] = 0;
        cursor[LENGTH] = 0;
        while (cursor[AT] < length) {
            short status = attempt();
            if (status != DONE) {
                ISOException.throwIt(status);
            }
        }
        apdu.setOutgoing();
        apdu.setOutgoingLength(cursor[LENGTH]);
        apdu.sendBytesLong(response, (short) 0, cursor[LENGTH]);
    }

    /** Carries out a step: the status word of its exception, or 9000. */
    private short attempt() {
        try {
            step(next());
            return DONE;
        } catch (CryptoException exception) {
            return (short) (CRYPTO + exception.getReason());
        } catch (SystemException exception) {
            return (short) (SYSTEM + exception.getReason());
        } catch (TransactionException exception) {
            return (short) (TRANSACTION + exception.getReason());
        } catch (NullPointerException exception) {
            return NULL_POINTER;
        } catch (SecurityException exception) {
            return SECURITY;
        } catch (IndexOutOfBoundsException exception) {
            return INDEX;
        }
    }

    private void step(byte which) {
        switch ((byte) (which & 0xF0)) {
            case 0x00:
                frame(which);
                break;
            case 0x10:
                handleKey(which);
                break;
            case 0x20:
                makeCipher(which);
                break;
            case 0x30:
                askCipher(which);
                break;
            case 0x60:
                handle(which);
                break;
            default:
                ISOException.throwIt(ISO7816.SW_INS_NOT_SUPPORTED);
        }
    }

    /** Transactions, and exceptions. */
    private void frame(byte which) {
        switch (which) {
            case 0x00:
                JCSystem.beginTransaction();
                break;
            case 0x01:
                JCSystem.commitTransaction();
                break;
            case 0x02:
                JCSystem.abortTransaction();
                break;
            default: // the next step, and how it ends
                answer(attempt());
        }
    }

    /** Keys that are made, set, cleared and forgotten. */
    private void handleKey(byte which) {
        byte slot = next();
        switch (which) {
            case 0x10:
                keys[slot] = KeyBuilder.buildKey(next(), two(), false);
                break;
            case 0x11:
                ((DESKey) keys[slot]).setKey(place(), two());
                break;
            case 0x12:
                ((AESKey) keys[slot]).setKey(place(), two());
                break;
            case 0x13:
                keys[slot].clearKey();
                break;
            case 0x14:
                keys[slot] = null;
                break;
            default:
                keys[slot] = new OwnKey();
        }
    }

    /** Ciphers that are made and forgotten. */
    private void makeCipher(byte which) {
        byte slot = next();
        switch (which) {
            case 0x20:
                ciphers[slot] = Cipher.getInstance(next(), next() != 0);
                break;
            case 0x21:
                ciphers[slot] = Cipher.getInstance(next(), next(), next() != 0);
                break;
            default:
                ciphers[slot] = null;
        }
    }

    private void askCipher(byte which) {
        Cipher cipher = cipherIn(next());
        switch (which) {
            case 0x30:
                answer(cipher.getAlgorithm());
                break;
            case 0x31:
                answer(cipher.getCipherAlgorithm());
                break;
            case 0x32:
                answer(cipher.getPaddingAlgorithm());
                break;
            case 0x33:
                cipher.init(keyIn(next()), next());
                break;
            case 0x34:
                cipher.init(keyIn(next()), next(), place(), two(), two());
                break;
            case 0x35:
                answer(cipher.update(place(), two(), two(), place(), two()));
                break;
            default:
                answer(cipher.doFinal(place(), two(), two(), place(), two()));
        }
    }

    /** The key in a slot. */
    protected Key keyIn(byte slot) {
        return keys[slot];
    }

    /** The cipher in a slot. */
    protected Cipher cipherIn(byte slot) {
        return ciphers[slot];
    }

    /** The array with a place: 0 the buffer of the command, 1 one that is kept, 2 one that a reset clears; else none. */
    protected byte[] arrayIn(byte place) {
        switch (place) {
            case 0:
                return APDU.getCurrentAPDUBuffer();
            case 1:
                return kept;
            case 2:
                return passing;
            default:
                return null;
        }
    }

    /** Bytes of arrays. */
    private void handle(byte which) {
        byte[] array = place();
        short offset = two();
        short length = two();
        switch (which) {
            case 0x60:
                cursor[LENGTH] = Util.arrayCopy(array, offset, response, cursor[LENGTH], length);
                break;
            case 0x61:
                Util.arrayCopy(steps, cursor[AT], array, offset, length);
                cursor[AT] += length;
                break;
            default:
                Util.arrayFill(array, offset, length, next());
        }
    }

    private byte[] place() {
        return arrayIn(next());
    }

    private byte next() {
        return steps[cursor[AT]++];
    }

    private short two() {
        return Util.makeShort(next(), next());
    }

    private void answer(short value) {
        cursor[LENGTH] = Util.setShort(response, cursor[LENGTH], value);
    }
}
