package signatures;

import javacard.framework.AID;
import javacard.framework.APDU;
import javacard.framework.Applet;
import javacard.framework.ISO7816;
import javacard.framework.ISOException;
import javacard.framework.JCSystem;
import javacard.framework.Shareable;
import javacard.framework.SystemException;
import javacard.framework.TransactionException;
import javacard.framework.Util;
import javacard.security.AESKey;
import javacard.security.CryptoException;
import javacard.security.DESKey;
import javacard.security.HMACKey;
import javacard.security.Key;
import javacard.security.KeyBuilder;
import javacard.security.Signature;

/**
 * Carries out the steps that the data of a command are. A step is a byte that says which, and its operands: keys and signatures by their slots,
 * arrays by their places with an offset of two bytes. What the steps put out is the answer. An exception ends the command: the status word says
 * which, and its reason.
 */
public abstract class Signatures extends Applet implements Lender {
    /** The first byte of the status words of exceptions; the second is the reason, where there is one. */
    private static final short CRYPTO = (short) 0xC000;
    private static final short SYSTEM = (short) 0xD000;
    private static final short TRANSACTION = (short) 0xDA00;
    private static final short NULL_POINTER = (short) 0xEA00;
    private static final short SECURITY = (short) 0xEB00;
    private static final short INDEX = (short) 0xE600;
    private static final short CLASS_CAST = (short) 0xEC00;

    private static final short DONE = (short) 0x9000;

    private static final short SIZE = 320;
    private static final short SLOTS = 6;
    private static final byte AT = 0;
    private static final byte LENGTH = 1;

    /** An applet's own key, which no key object of the platform is. */
    private static class OwnKey implements Key {
        public void clearKey() {
        }

        public short getSize() {
            return 128;
        }

        public byte getType() {
            return KeyBuilder.TYPE_AES;
        }

        public boolean isInitialized() {
            return true;
        }
    }

    private final byte[] kept = new byte[SIZE];
    private final byte[] passing = JCSystem.makeTransientByteArray(SIZE, JCSystem.CLEAR_ON_RESET);
    private final byte[] steps = JCSystem.makeTransientByteArray((short) 256, JCSystem.CLEAR_ON_DESELECT);
    private final byte[] response = JCSystem.makeTransientByteArray((short) 256, JCSystem.CLEAR_ON_DESELECT);
    private final short[] cursor = JCSystem.makeTransientShortArray((short) 2, JCSystem.CLEAR_ON_DESELECT);
    private final Key[] keys = new Key[SLOTS];
    private final Signature[] signatures = new Signature[SLOTS];

    public Shareable getShareableInterfaceObject(AID client, byte parameter) {
        return this;
    }

    public Key key() {
        return keys[0];
    }

    public Signature signature() {
        return signatures[0];
    }

    public byte[] bytes() {
        return kept;
    }

    public void process(APDU apdu) {
        if (selectingApplet()) {
            return;
        }
        byte[] buffer = apdu.getBuffer();
        short length = apdu.setIncomingAndReceive();
        Util.arrayCopy(buffer, ISO7816.OFFSET_CDATA, steps, (short) 0, length);
        cursor[AT] = 0;
        cursor[LENGTH] = 0;
        while (cursor[AT] < length) {
            short status = attempt();
            if (status != DONE) {
                ISOException.throwIt(status);
            }
        }
        apdu.setOutgoing();
        apdu.setOutgoingLength(cursor[LENGTH]);
        apdu.sendBytesLong(response, (short) 0, cursor[LENGTH]);
    }

    /** Carries out a step: the status word of its exception, or 9000. */
    private short attempt() {
        try {
            step(next());
            return DONE;
        } catch (CryptoException exception) {
            return (short) (CRYPTO + exception.getReason());
        } catch (SystemException exception) {
            return (short) (SYSTEM + exception.getReason());
        } catch (TransactionException exception) {
            return (short) (TRANSACTION + exception.getReason());
        } catch (NullPointerException exception) {
            return NULL_POINTER;
        } catch (SecurityException exception) {
            return SECURITY;
        } catch (IndexOutOfBoundsException exception) {
            return INDEX;
        } catch (ClassCastException exception) {
            return CLASS_CAST;
        }
    }

    private void step(byte which) {
        switch ((byte) (which & 0xF0)) {
            case 0x00:
                frame(which);
                break;
            case 0x10:
                handleKey(which);
                break;
            case 0x20:
                make(which);
                break;
            case 0x30:
                ask(which);
                break;
            case 0x40:
                sign(which);
                break;
            case 0x60:
                handle(which);
                break;
            default:
                ISOException.throwIt(ISO7816.SW_INS_NOT_SUPPORTED);
        }
    }

    /** Transactions, and exceptions. */
    private void frame(byte which) {
        switch (which) {
            case 0x00:
                JCSystem.beginTransaction();
                break;
            case 0x01:
                JCSystem.commitTransaction();
                break;
            case 0x02:
                JCSystem.abortTransaction();
                break;
            default: // the next step, and how it ends
                answer(attempt());
        }
    }

    /** Keys that are made, set and cleared. */
    private void handleKey(byte which) {
        byte slot = next();
        switch (which) {
            case 0x10:
                keys[slot] = KeyBuilder.buildKey(next(), two(), false);
                break;
            case 0x11:
                ((DESKey) keys[slot]).setKey(place(), two());
                break;
            case 0x12:
                ((AESKey) keys[slot]).setKey(place(), two());
                break;
            case 0x13:
                ((HMACKey) keys[slot]).setKey(place(), two(), two());
                break;
            case 0x14:
                keys[slot].clearKey();
                break;
            default:
                keys[slot] = new OwnKey();
        }
    }

    /** Signatures that are made and initialized. */
    private void make(byte which) {
        byte slot = next();
        switch (which) {
            case 0x20:
                signatures[slot] = Signature.getInstance(next(), false);
                break;
            case 0x21:
                signatures[slot] = Signature.getInstance(next(), next(), next(), false);
                break;
            case 0x22:
                signatureIn(slot).init(keyIn(next()), next());
                break;
            default:
                signatureIn(slot).init(keyIn(next()), next(), place(), two(), two());
        }
    }

    private void ask(byte which) {
        Signature signature = signatureIn(next());
        switch (which) {
            case 0x30:
                answer(signature.getAlgorithm());
                break;
            case 0x31:
                answer(signature.getLength());
                break;
            case 0x32:
                answer(signature.getMessageDigestAlgorithm());
                break;
            case 0x33:
                answer(signature.getCipherAlgorithm());
                break;
            default:
                answer(signature.getPaddingAlgorithm());
        }
    }

    /** Messages. */
    private void sign(byte which) {
        Signature signature = signatureIn(next());
        byte[] array = place();
        short offset = two();
        short length = two();
        switch (which) {
            case 0x40:
                signature.update(array, offset, length);
                break;
            case 0x41:
                answer(signature.sign(array, offset, length, place(), two()));
                break;
            default:
                answer((short) (signature.verify(array, offset, length, place(), two(), two()) ? 1 : 0));
        }
    }

    /** Bytes of arrays. */
    private void handle(byte which) {
        byte[] array = place();
        short offset = two();
        short length = two();
        switch (which) {
            case 0x60:
                cursor[LENGTH] = Util.arrayCopy(array, offset, response, cursor[LENGTH], length);
                break;
            case 0x61:
                Util.arrayCopy(steps, cursor[AT], array, offset, length);
                cursor[AT] += length;
                break;
            default:
                Util.arrayFill(array, offset, length, next());
        }
    }

    private byte[] place() {
        return arrayIn(next());
    }

    protected Key keyIn(byte slot) {
        return slot < 0 ? null : keys[slot];
    }

    protected Signature signatureIn(byte slot) {
        return signatures[slot];
    }

    /** 0: the buffer of the command; 1: an array that is kept; 2: one that a reset clears; else none. */
    protected byte[] arrayIn(byte place) {
        switch (place) {
            case 0:
                return APDU.getCurrentAPDUBuffer();
            case 1:
                return kept;
            case 2:
                return passing;
            default:
                return null;
        }
    }

    private byte next() {
        return steps[cursor[AT]++];
    }

    private short two() {
        return Util.makeShort(next(), next());
    }

    private void answer(short value) {
        cursor[LENGTH] = Util.setShort(response, cursor[LENGTH], value);
    }
}
