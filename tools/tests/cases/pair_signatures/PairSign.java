package pairsign;

import javacard.framework.APDU;
import javacard.framework.Applet;
import javacard.framework.ISO7816;
import javacard.framework.ISOException;
import javacard.framework.JCSystem;
import javacard.framework.SystemException;
import javacard.framework.TransactionException;
import javacard.framework.Util;
import javacard.security.CryptoException;
import javacard.security.ECKey;
import javacard.security.ECPrivateKey;
import javacard.security.ECPublicKey;
import javacard.security.Key;
import javacard.security.KeyBuilder;
import javacard.security.RSAPrivateCrtKey;
import javacard.security.RSAPrivateKey;
import javacard.security.RSAPublicKey;
import javacard.security.Signature;
import javacardx.crypto.Cipher;

/**
 * Carries out the steps that the data of a command are. A step is a byte that says which, and its operands: keys by their slots, arrays by their
 * places with an offset of two bytes. What the steps put out is the answer. An exception ends the command: the status word says which, and its
 * reason.
 */
public class PairSign extends Applet {
    /** The first byte of the status words of exceptions; the second is the reason, where there is one. */
    private static final short CRYPTO = (short) 0xC000;
    private static final short SYSTEM = (short) 0xD000;
    private static final short TRANSACTION = (short) 0xDA00;
    private static final short NULL_POINTER = (short) 0xEA00;
    private static final short SECURITY = (short) 0xEB00;
    private static final short INDEX = (short) 0xE600;
    private static final short CLASS_CAST = (short) 0xEC00;

    private static final short DONE = (short) 0x9000;

    private static final short SIZE = 600;
    private static final short SLOTS = 4;
    private static final byte AT = 0;
    private static final byte LENGTH = 1;

    private final byte[] kept = new byte[SIZE];
    private final byte[] steps = JCSystem.makeTransientByteArray((short) 256, JCSystem.CLEAR_ON_DESELECT);
    private final byte[] response = JCSystem.makeTransientByteArray((short) 256, JCSystem.CLEAR_ON_DESELECT);
    private final short[] cursor = JCSystem.makeTransientShortArray((short) 2, JCSystem.CLEAR_ON_DESELECT);
    private final Key[] keys = new Key[SLOTS];
    private final Signature[] signatures = new Signature[SLOTS];
    private final Cipher[] ciphers = new Cipher[SLOTS];

    public static void install(byte[] array, short offset, byte length) {
        new PairSign().register();
    }

    public void process(APDU apdu) {
        if (selectingApplet()) {
            return;
        }
        byte[] buffer = apdu.getBuffer();
        short length = apdu.setIncomingAndReceive();
        Util.arrayCopy(buffer, ISO7816.OFFSET_CDATA, steps, (short) 0, length);
        cursor[AT] = 0;
        cursor[LENGTH] = 0;
        while (cursor[AT] < length) {
            short status = attempt();
            if (status != DONE) {
                ISOException.throwIt(status);
            }
        }
        apdu.setOutgoing();
        apdu.setOutgoingLength(cursor[LENGTH]);
        apdu.sendBytesLong(response, (short) 0, cursor[LENGTH]);
    }

    /** Carries out a step: the status word of its exception, or 9000. */
    private short attempt() {
        try {
            step(next());
            return DONE;
        } catch (CryptoException exception) {
            return (short) (CRYPTO + exception.getReason());
        } catch (SystemException exception) {
            return (short) (SYSTEM + exception.getReason());
        } catch (TransactionException exception) {
            return (short) (TRANSACTION + exception.getReason());
        } catch (NullPointerException exception) {
            return NULL_POINTER;
        } catch (SecurityException exception) {
            return SECURITY;
        } catch (IndexOutOfBoundsException exception) {
            return INDEX;
        } catch (ClassCastException exception) {
            return CLASS_CAST;
        }
    }

    private void step(byte which) {
        switch ((byte) (which & 0xF0)) {
            case 0x00:
                frame(which);
                break;
            case 0x10:
                make(which);
                break;
            case 0x20:
                ask(which);
                break;
            case 0x30:
                change();
                break;
            case 0x40:
                sign(which);
                break;
            case 0x50:
                encipher(which);
                break;
            case 0x60:
                handle(which);
                break;
            default:
                ISOException.throwIt(ISO7816.SW_INS_NOT_SUPPORTED);
        }
    }

    /** Transactions, and exceptions. */
    private void frame(byte which) {
        switch (which) {
            case 0x00:
                JCSystem.beginTransaction();
                break;
            case 0x01:
                JCSystem.commitTransaction();
                break;
            case 0x02:
                JCSystem.abortTransaction();
                break;
            default: // the next step, and how it ends
                answer(attempt());
        }
    }

    /** Keys that are made and forgotten. */
    private void make(byte which) {
        switch (which) {
            case 0x10:
                keys[next()] = KeyBuilder.buildKey(next(), two(), next() != 0);
                break;
            default:
                keys[next()] = null;
        }
    }

    private void ask(byte which) {
        Key key = keys[next()];
        switch (which) {
            case 0x22:
                answer((short) (key.isInitialized() ? 1 : 0));
                break;
            default:
                key.clearKey();
        }
    }

    /** Parts of keys. */
    private void change() {
        set(keys[next()], next(), place(), two(), two());
    }

    /** Signatures. */
    private void sign(byte which) {
        byte slot = next();
        Signature signature = signatures[slot];
        switch (which) {
            case 0x40:
                signatures[slot] = Signature.getInstance(next(), false);
                break;
            case 0x41:
                signatures[slot] = Signature.getInstance(next(), next(), next(), false);
                break;
            case 0x42:
                signature.init(keys[next()], next());
                break;
            case 0x43:
                signature.init(keys[next()], next(), place(), two(), two());
                break;
            case 0x44:
                answer(signature.getLength());
                break;
            case 0x45:
                answer(signature.getAlgorithm());
                answer(signature.getMessageDigestAlgorithm());
                answer(signature.getCipherAlgorithm());
                answer(signature.getPaddingAlgorithm());
                break;
            case 0x46:
                signature.update(place(), two(), two());
                break;
            case 0x47:
                answer(signature.sign(place(), two(), two(), place(), two()));
                break;
            default:
                answer((short) (signature.verify(place(), two(), two(), place(), two(), two()) ? 1 : 0));
        }
    }

    /** Ciphers. */
    private void encipher(byte which) {
        byte slot = next();
        Cipher cipher = ciphers[slot];
        switch (which) {
            case 0x50:
                ciphers[slot] = Cipher.getInstance(next(), false);
                break;
            case 0x51:
                ciphers[slot] = Cipher.getInstance(next(), next(), false);
                break;
            case 0x52:
                cipher.init(keys[next()], next());
                break;
            case 0x53:
                cipher.init(keys[next()], next(), place(), two(), two());
                break;
            case 0x54:
                answer(cipher.getAlgorithm());
                answer(cipher.getCipherAlgorithm());
                answer(cipher.getPaddingAlgorithm());
                break;
            case 0x55:
                answer(cipher.update(place(), two(), two(), place(), two()));
                break;
            default:
                answer(cipher.doFinal(place(), two(), two(), place(), two()));
        }
    }

    private static void set(Key key, byte part, byte[] array, short offset, short length) {
        switch (part) {
            case 0:
                if (key instanceof RSAPublicKey) {
                    ((RSAPublicKey) key).setModulus(array, offset, length);
                } else {
                    ((RSAPrivateKey) key).setModulus(array, offset, length);
                }
                break;
            case 1:
                if (key instanceof RSAPublicKey) {
                    ((RSAPublicKey) key).setExponent(array, offset, length);
                } else {
                    ((RSAPrivateKey) key).setExponent(array, offset, length);
                }
                break;
            case 2:
                ((RSAPrivateCrtKey) key).setP(array, offset, length);
                break;
            case 3:
                ((RSAPrivateCrtKey) key).setQ(array, offset, length);
                break;
            case 4:
                ((RSAPrivateCrtKey) key).setPQ(array, offset, length);
                break;
            case 5:
                ((RSAPrivateCrtKey) key).setDP1(array, offset, length);
                break;
            case 6:
                ((RSAPrivateCrtKey) key).setDQ1(array, offset, length);
                break;
            case 7:
                ((ECKey) key).setFieldFP(array, offset, length);
                break;
            case 8:
                ((ECKey) key).setA(array, offset, length);
                break;
            case 9:
                ((ECKey) key).setB(array, offset, length);
                break;
            case 10:
                ((ECKey) key).setG(array, offset, length);
                break;
            case 11:
                ((ECKey) key).setR(array, offset, length);
                break;
            case 12:
                ((ECPublicKey) key).setW(array, offset, length);
                break;
            default:
                ((ECPrivateKey) key).setS(array, offset, length);
        }
    }

    /** Bytes of arrays. */
    private void handle(byte which) {
        byte[] array = place();
        short offset = two();
        short length = two();
        switch (which) {
            case 0x60:
                cursor[LENGTH] = Util.arrayCopy(array, offset, response, cursor[LENGTH], length);
                break;
            case 0x61:
                Util.arrayCopy(steps, cursor[AT], array, offset, length);
                cursor[AT] += length;
                break;
            default:
                Util.arrayFill(array, offset, length, next());
        }
    }

    /** 0: the buffer of the command; 1: an array that is kept; else none. */
    private byte[] place() {
        switch (next()) {
            case 0:
                return APDU.getCurrentAPDUBuffer();
            case 1:
                return kept;
            default:
                return null;
        }
    }

    private byte next() {
        return steps[cursor[AT]++];
    }

    private short two() {
        return Util.makeShort(next(), next());
    }

    private void answer(short value) {
        cursor[LENGTH] = Util.setShort(response, cursor[LENGTH], value);
    }
}
