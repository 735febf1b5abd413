package keyagreements;

import javacard.framework.APDU;
import javacard.framework.Applet;
import javacard.framework.ISO7816;
import javacard.framework.ISOException;
import javacard.framework.JCSystem;
import javacard.framework.SystemException;
import javacard.framework.TransactionException;
import javacard.framework.Util;
import javacard.security.CryptoException;
import javacard.security.ECKey;
import javacard.security.ECPrivateKey;
import javacard.security.ECPublicKey;
import javacard.security.Key;
import javacard.security.KeyAgreement;
import javacard.security.KeyBuilder;
import javacard.security.KeyPair;
import javacard.security.PrivateKey;
import javacard.security.PublicKey;
import javacard.security.RSAPrivateCrtKey;
import javacard.security.RSAPrivateKey;
import javacard.security.RSAPublicKey;

/**
 * Carries out the steps that the data of a command are. A step is a byte that says which, and its operands: keys by their slots, arrays by their
 * places with an offset of two bytes. What the steps put out is the answer. An exception ends the command: the status word says which, and its
 * reason.
 */
public class KeyAgreements extends Applet {
    /** The first byte of the status words of exceptions; the second is the reason, where there is one. */
    private static final short CRYPTO = (short) 0xC000;
    private static final short SYSTEM = (short) 0xD000;
    private static final short TRANSACTION = (short) 0xDA00;
    private static final short NULL_POINTER = (short) 0xEA00;
    private static final short SECURITY = (short) 0xEB00;
    private static final short INDEX = (short) 0xE600;
    private static final short CLASS_CAST = (short) 0xEC00;

    private static final short DONE = (short) 0x9000;

    private static final short SIZE = 600;
    private static final short SLOTS = 4;
    private static final byte AT = 0;
    private static final byte LENGTH = 1;

    private final byte[] kept = new byte[SIZE];
    private final byte[] steps = JCSystem.makeTransientByteArray((short) 256, JCSystem.CLEAR_ON_DESELECT);
    private final byte[] response = JCSystem.makeTransientByteArray((short) 256, JCSystem.CLEAR_ON_DESELECT);
    private final short[] cursor = JCSystem.makeTransientShortArray((short) 2, JCSystem.CLEAR_ON_DESELECT);
    private final Key[] keys = new Key[SLOTS];
    private final KeyAgreement[] agreements = new KeyAgreement[SLOTS];
    private final KeyPair[] pairs = new KeyPair[SLOTS];

    public static void install(byte[] array, short offset, byte length) {
        new KeyAgreements().register();
    }

    public void process(APDU apdu) {
        if (selectingApplet()) {
            return;
        }
        byte[] buffer = apdu.getBuffer();
        short length = apdu.setIncomingAndReceive();
        Util.arrayCopy(buffer, ISO7816.OFFSET_CDATA, steps, (short) 0, length);
        cursor[AT] = 0;
        cursor[LENGTH] = 0;
        while (cursor[AT] < length) {
            short status = attempt();
            if (status != DONE) {
                ISOException.throwIt(status);
            }
        }
        apdu.setOutgoing();
        apdu.setOutgoingLength(cursor[LENGTH]);
        apdu.sendBytesLong(response, (short) 0, cursor[LENGTH]);
    }

    /** Carries out a step: the status word of its exception, or 9000. */
    private short attempt() {
        try {
            step(next());
            return DONE;
        } catch (CryptoException exception) {
            return (short) (CRYPTO + exception.getReason());
        } catch (SystemException exception) {
            return (short) (SYSTEM + exception.getReason());
        } catch (TransactionException exception) {
            return (short) (TRANSACTION + exception.getReason());
        } catch (NullPointerException exception) {
            return NULL_POINTER;
        } catch (SecurityException exception) {
            return SECURITY;
        } catch (IndexOutOfBoundsException exception) {
            return INDEX;
        } catch (ClassCastException exception) {
            return CLASS_CAST;
        }
    }

    private void step(byte which) {
        switch ((byte) (which & 0xF0)) {
            case 0x00:
                frame(which);
                break;
            case 0x10:
                make(which);
                break;
            case 0x20:
                ask(which);
                break;
            case 0x30:
                change(which);
                break;
            case 0x40:
                agree(which);
                break;
            case 0x50:
                pair(which);
                break;
            case 0x60:
                handle(which);
                break;
            default:
                ISOException.throwIt(ISO7816.SW_INS_NOT_SUPPORTED);
        }
    }

    /** Transactions, and exceptions. */
    private void frame(byte which) {
        switch (which) {
            case 0x00:
                JCSystem.beginTransaction();
                break;
            case 0x01:
                JCSystem.commitTransaction();
                break;
            case 0x02:
                JCSystem.abortTransaction();
                break;
            default: // the next step, and how it ends
                answer(attempt());
        }
    }

    /** Keys that are made, forgotten, and looked at. */
    private void make(byte which) {
        switch (which) {
            case 0x10:
                keys[next()] = KeyBuilder.buildKey(next(), two(), next() != 0);
                break;
            case 0x11:
                keys[next()] = null;
                break;
            default: // 0 for none, 1 to 5 for the keys of RSA and on curves
                answer(kindOf(keys[next()]));
        }
    }

    private static short kindOf(Key key) {
        if (key instanceof RSAPublicKey) {
            return 1;
        }
        if (key instanceof RSAPrivateKey) {
            return 2;
        }
        if (key instanceof RSAPrivateCrtKey) {
            return 3;
        }
        if (key instanceof ECPublicKey) {
            return 4;
        }
        if (key instanceof ECPrivateKey) {
            return 5;
        }
        return 0;
    }

    private void ask(byte which) {
        Key key = keys[next()];
        switch (which) {
            case 0x20:
                answer(key.getType());
                break;
            case 0x21:
                answer(key.getSize());
                break;
            case 0x22:
                answer((short) (key.isInitialized() ? 1 : 0));
                break;
            default:
                key.clearKey();
        }
    }

    /** Parts of keys. */
    private void change(byte which) {
        Key key = keys[next()];
        switch (which) {
            case 0x30:
                set(key, next(), place(), two(), two());
                break;
            case 0x31:
                answer(get(key, next(), place(), two()));
                break;
            case 0x32:
                ((ECKey) key).setK(two());
                break;
            case 0x33:
                answer(((ECKey) key).getK());
                break;
            default:
                ((ECKey) key).copyDomainParametersFrom((ECKey) keys[next()]);
        }
    }

    /** Key agreements. */
    private void agree(byte which) {
        byte slot = next();
        KeyAgreement agreement = agreements[slot];
        switch (which) {
            case 0x40:
                agreements[slot] = KeyAgreement.getInstance(next(), false);
                break;
            case 0x41:
                agreement.init((PrivateKey) key());
                break;
            case 0x42:
                answer(agreement.getAlgorithm());
                break;
            default:
                answer(agreement.generateSecret(place(), two(), two(), place(), two()));
        }
    }

    /** Key pairs. */
    private void pair(byte which) {
        byte slot = next();
        KeyPair pair = pairs[slot];
        switch (which) {
            case 0x50:
                pairs[slot] = new KeyPair(next(), two());
                break;
            case 0x51:
                pairs[slot] = new KeyPair((PublicKey) key(), (PrivateKey) key());
                break;
            case 0x52:
                pair.genKeyPair();
                break;
            case 0x53:
                keys[next()] = pair.getPublic();
                break;
            default:
                keys[next()] = pair.getPrivate();
        }
    }

    /** The key of a slot; none for a slot below 0. */
    private Key key() {
        byte slot = next();
        return slot < 0 ? null : keys[slot];
    }

    private static void set(Key key, byte part, byte[] array, short offset, short length) {
        switch (part) {
            case 0:
                if (key instanceof RSAPublicKey) {
                    ((RSAPublicKey) key).setModulus(array, offset, length);
                } else {
                    ((RSAPrivateKey) key).setModulus(array, offset, length);
                }
                break;
            case 1:
                if (key instanceof RSAPublicKey) {
                    ((RSAPublicKey) key).setExponent(array, offset, length);
                } else {
                    ((RSAPrivateKey) key).setExponent(array, offset, length);
                }
                break;
            case 2:
                ((RSAPrivateCrtKey) key).setP(array, offset, length);
                break;
            case 3:
                ((RSAPrivateCrtKey) key).setQ(array, offset, length);
                break;
            case 4:
                ((RSAPrivateCrtKey) key).setPQ(array, offset, length);
                break;
            case 5:
                ((RSAPrivateCrtKey) key).setDP1(array, offset, length);
                break;
            case 6:
                ((RSAPrivateCrtKey) key).setDQ1(array, offset, length);
                break;
            case 7:
                ((ECKey) key).setFieldFP(array, offset, length);
                break;
            case 8:
                ((ECKey) key).setA(array, offset, length);
                break;
            case 9:
                ((ECKey) key).setB(array, offset, length);
                break;
            case 10:
                ((ECKey) key).setG(array, offset, length);
                break;
            case 11:
                ((ECKey) key).setR(array, offset, length);
                break;
            case 12:
                ((ECPublicKey) key).setW(array, offset, length);
                break;
            default:
                ((ECPrivateKey) key).setS(array, offset, length);
        }
    }

    private static short get(Key key, byte part, byte[] array, short offset) {
        switch (part) {
            case 0:
                return key instanceof RSAPublicKey
                        ? ((RSAPublicKey) key).getModulus(array, offset)
                        : ((RSAPrivateKey) key).getModulus(array, offset);
            case 1:
                return key instanceof RSAPublicKey
                        ? ((RSAPublicKey) key).getExponent(array, offset)
                        : ((RSAPrivateKey) key).getExponent(array, offset);
            case 2:
                return ((RSAPrivateCrtKey) key).getP(array, offset);
            case 3:
                return ((RSAPrivateCrtKey) key).getQ(array, offset);
            case 4:
                return ((RSAPrivateCrtKey) key).getPQ(array, offset);
            case 5:
                return ((RSAPrivateCrtKey) key).getDP1(array, offset);
            case 6:
                return ((RSAPrivateCrtKey) key).getDQ1(array, offset);
            case 7:
                return ((ECKey) key).getField(array, offset);
            case 8:
                return ((ECKey) key).getA(array, offset);
            case 9:
                return ((ECKey) key).getB(array, offset);
            case 10:
                return ((ECKey) key).getG(array, offset);
            case 11:
                return ((ECKey) key).getR(array, offset);
            case 12:
                return ((ECPublicKey) key).getW(array, offset);
            default:
                return ((ECPrivateKey) key).getS(array, offset);
        }
    }

    /** Bytes of arrays. */
    private void handle(byte which) {
        byte[] array = place();
        short offset = two();
        short length = two();
        switch (which) {
            case 0x60:
                cursor[LENGTH] = Util.arrayCopy(array, offset, response, cursor[LENGTH], length);
                break;
            case 0x61:
                Util.arrayCopy(steps, cursor[AT], array, offset, length);
                cursor[AT] += length;
                break;
            case 0x62:
                Util.arrayFill(array, offset, length, next());
                break;
            default:
                answer((short) (Util.arrayCompare(array, offset, place(), two(), length) == 0 ? 1 : 0));
        }
    }

    /** 0: the buffer of the command; 1: an array that is kept; else none. */
    private byte[] place() {
        switch (next()) {
            case 0:
                return APDU.getCurrentAPDUBuffer();
            case 1:
                return kept;
            default:
                return null;
        }
    }

    private byte next() {
        return steps[cursor[AT]++];
    }

    private short two() {
        return Util.makeShort(next(), next());
    }

    private void answer(short value) {
        cursor[LENGTH] = Util.setShort(response, cursor[LENGTH], value);
    }
}
