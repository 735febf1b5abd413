package keys;

import javacard.framework.APDU;
import javacard.framework.Applet;
import javacard.framework.ISO7816;
import javacard.framework.ISOException;
import javacard.framework.JCSystem;
import javacard.framework.SystemException;
import javacard.framework.TransactionException;
import javacard.framework.Util;
import javacard.security.AESKey;
import javacard.security.CryptoException;
import javacard.security.DESKey;
import javacard.security.HMACKey;
import javacard.security.Key;
import javacard.security.KeyBuilder;

/**
 * Carries out the steps that the data of a command are. A step is a byte that says which, and its operands: keys by their slots, arrays by their
 * places with an offset of two bytes. What the steps put out is the answer. An exception ends the command: the status word says which, and its
 * reason.
 */
public class Keys extends Applet {
    /** The first byte of the status words of exceptions; the second is the reason, where there is one. */
    private static final short CRYPTO = (short) 0xC000;
    private static final short SYSTEM = (short) 0xD000;
    private static final short TRANSACTION = (short) 0xDA00;
    private static final short NULL_POINTER = (short) 0xEA00;
    private static final short SECURITY = (short) 0xEB00;
    private static final short INDEX = (short) 0xE600;
    private static final short CLASS_CAST = (short) 0xEC00;

    private static final short DONE = (short) 0x9000;

    private static final short SIZE = 160;
    private static final short SLOTS = 4;
    private static final byte AT = 0;
    private static final byte LENGTH = 1;

    private final byte[] kept = new byte[SIZE];
    private final byte[] steps = JCSystem.makeTransientByteArray((short) 256, JCSystem.CLEAR_ON_DESELECT);
    private final byte[] response = JCSystem.makeTransientByteArray((short) 256, JCSystem.CLEAR_ON_DESELECT);
    private final short[] cursor = JCSystem.makeTransientShortArray((short) 2, JCSystem.CLEAR_ON_DESELECT);
    private final Key[] keys = new Key[SLOTS];

    public static void install(byte[] array, short offset, byte length) {
        new Keys().register();
    }

    public void process(APDU apdu) {
        if (selectingApplet()) {
            return;
        }
        byte[] buffer = apdu.getBuffer();
        short length = apdu.setIncomingAndReceive();
        Util.arrayCopy(buffer, ISO7816.OFFSET_CDATA, steps, (short) 0, length);
        cursor[AT] = 0;
        cursor[LENGTH] = 0;
        while (cursor[AT] < length) {
            short status = attempt();
            if (status != DONE) {
                ISOException.throwIt(status);
            }
        }
        apdu.setOutgoing();
        apdu.setOutgoingLength(cursor[LENGTH]);
        apdu.sendBytesLong(response, (short) 0, cursor[LENGTH]);
    }

    /** Carries out a step: the status word of its exception, or 9000. */
    private short attempt() {
        try {
            step(next());
            return DONE;
        } catch (CryptoException exception) {
            return (short) (CRYPTO + exception.getReason());
        } catch (SystemException exception) {
            return (short) (SYSTEM + exception.getReason());
        } catch (TransactionException exception) {
            return (short) (TRANSACTION + exception.getReason());
        } catch (NullPointerException exception) {
            return NULL_POINTER;
        } catch (SecurityException exception) {
            return SECURITY;
        } catch (IndexOutOfBoundsException exception) {
            return INDEX;
        } catch (ClassCastException exception) {
            return CLASS_CAST;
        }
    }

    private void step(byte which) {
        switch ((byte) (which & 0xF0)) {
            case 0x00:
                frame(which);
                break;
            case 0x10:
                make(which);
                break;
            case 0x20:
                ask(which);
                break;
            case 0x30:
                askDes(which);
                break;
            case 0x40:
                askAes(which);
                break;
            case 0x50:
                askHmac(which);
                break;
            case 0x60:
                handle(which);
                break;
            default:
                ISOException.throwIt(ISO7816.SW_INS_NOT_SUPPORTED);
        }
    }

    /** Transactions, and exceptions. */
    private void frame(byte which) {
        switch (which) {
            case 0x00:
                JCSystem.beginTransaction();
                break;
            case 0x01:
                JCSystem.commitTransaction();
                break;
            case 0x02:
                JCSystem.abortTransaction();
                break;
            default: // the next step, and how it ends
                answer(attempt());
        }
    }

    /** Keys that are made, forgotten, and looked at. */
    private void make(byte which) {
        switch (which) {
            case 0x10:
                keys[next()] = KeyBuilder.buildKey(next(), two(), next() != 0);
                break;
            case 0x11:
                keys[next()] = null;
                break;
            default: // 0 for none, 1 for a DES key, 2 for an AES key, 3 for an HMAC key
                answer(kindOf(keys[next()]));
        }
    }

    private static short kindOf(Key key) {
        if (key instanceof DESKey) {
            return 1;
        }
        if (key instanceof AESKey) {
            return 2;
        }
        if (key instanceof HMACKey) {
            return 3;
        }
        return 0;
    }

    private void ask(byte which) {
        Key key = keys[next()];
        switch (which) {
            case 0x20:
                answer(key.getType());
                break;
            case 0x21:
                answer(key.getSize());
                break;
            case 0x22:
                answer((short) (key.isInitialized() ? 1 : 0));
                break;
            default:
                key.clearKey();
        }
    }

    private void askDes(byte which) {
        DESKey key = (DESKey) keys[next()];
        switch (which) {
            case 0x30:
                key.setKey(place(), two());
                break;
            default:
                answer(key.getKey(place(), two()));
        }
    }

    private void askAes(byte which) {
        AESKey key = (AESKey) keys[next()];
        switch (which) {
            case 0x40:
                key.setKey(place(), two());
                break;
            default:
                answer(key.getKey(place(), two()));
        }
    }

    private void askHmac(byte which) {
        HMACKey key = (HMACKey) keys[next()];
        switch (which) {
            case 0x50:
                key.setKey(place(), two(), two());
                break;
            default:
                answer(key.getKey(place(), two()));
        }
    }

    /** Bytes of arrays. */
    private void handle(byte which) {
        byte[] array = place();
        short offset = two();
        short length = two();
        switch (which) {
            case 0x60:
                cursor[LENGTH] = Util.arrayCopy(array, offset, response, cursor[LENGTH], length);
                break;
            case 0x61:
                Util.arrayCopy(steps, cursor[AT], array, offset, length);
                cursor[AT] += length;
                break;
            default:
                Util.arrayFill(array, offset, length, next());
        }
    }

    /** 0: the buffer of the command; 1: an array that is kept; else none. */
    private byte[] place() {
        switch (next()) {
            case 0:
                return APDU.getCurrentAPDUBuffer();
            case 1:
                return kept;
            default:
                return null;
        }
    }

    private byte next() {
        return steps[cursor[AT]++];
    }

    private short two() {
        return Util.makeShort(next(), next());
    }

    private void answer(short value) {
        cursor[LENGTH] = Util.setShort(response, cursor[LENGTH], value);
    }
}
