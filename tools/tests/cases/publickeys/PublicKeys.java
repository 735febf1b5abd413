package publickeys;

import javacard.framework.APDU;
import javacard.framework.APDUException;
import javacard.framework.Applet;
import javacard.framework.ISO7816;
import javacard.framework.ISOException;
import javacard.framework.JCSystem;
import javacard.framework.SystemException;
import javacard.framework.TransactionException;
import javacard.framework.Util;
import javacard.security.CryptoException;
import javacard.security.ECKey;
import javacard.security.ECPrivateKey;
import javacard.security.ECPublicKey;
import javacard.security.Key;
import javacard.security.KeyAgreement;
import javacard.security.KeyBuilder;
import javacard.security.KeyPair;
import javacard.security.PrivateKey;
import javacard.security.PublicKey;
import javacard.security.RSAPrivateCrtKey;
import javacard.security.RSAPrivateKey;
import javacard.security.RSAPublicKey;
import javacard.security.Signature;
import javacardx.crypto.Cipher;

/**
 * Carries out one call of a key, a signature, a cipher, a key pair or a key agreement a command. P1 is a slot; arrays are stretches of one array,
 * which commands write and read. An exception answers which it is, and its reason.
 */
public class PublicKeys extends Applet {
    private static final short CRYPTO = (short) 0xC000;
    private static final short SYSTEM = (short) 0xD000;
    private static final short TRANSACTION = (short) 0xDA00;
    private static final short NULL_POINTER = (short) 0xEA00;
    private static final short SECURITY = (short) 0xEB00;
    private static final short INDEX = (short) 0xE600;
    private static final short CLASS_CAST = (short) 0xEC00;

    private static final short SLOTS = 8;
    private static final short SIZE = 2200;

    private final byte[] work = new byte[SIZE];
    private final Key[] keys = new Key[SLOTS];
    private final Signature[] signatures = new Signature[SLOTS];
    private final Cipher[] ciphers = new Cipher[SLOTS];
    private final KeyPair[] pairs = new KeyPair[SLOTS];
    private final KeyAgreement[] agreements = new KeyAgreement[SLOTS];

    public static void install(byte[] bArray, short bOffset, byte bLength) {
        new PublicKeys().register(bArray, (short) (bOffset + 1), bArray[bOffset]);
    }

    public void process(APDU apdu) {
        if (selectingApplet()) {
            return;
        }
        byte[] buffer = apdu.getBuffer();
        short sw = ISO7816.SW_NO_ERROR;
        short answered = 0;
        try {
            answered = carriedOut(apdu, buffer);
        } catch (CryptoException e) {
            sw = (short) (CRYPTO | e.getReason());
        } catch (SystemException e) {
            sw = (short) (SYSTEM | e.getReason());
        } catch (TransactionException e) {
            sw = (short) (TRANSACTION | e.getReason());
        } catch (NullPointerException e) {
            sw = NULL_POINTER;
        } catch (SecurityException e) {
            sw = SECURITY;
        } catch (IndexOutOfBoundsException e) {
            sw = INDEX;
        } catch (ClassCastException e) {
            sw = CLASS_CAST;
        }
        if (sw != ISO7816.SW_NO_ERROR) {
            ISOException.throwIt(sw);
        }
        if (answered != 0) {
            apdu.setOutgoingAndSend((short) 0, answered);
        }
    }

    /** Carries out a command; what it answers is put at the buffer's beginning, and how long that is is returned. */
    private short carriedOut(APDU apdu, byte[] buffer) {
        short p1p2 = Util.getShort(buffer, ISO7816.OFFSET_P1);
        byte slot = buffer[ISO7816.OFFSET_P1];
        byte number = buffer[ISO7816.OFFSET_P2];
        byte ins = buffer[ISO7816.OFFSET_INS];
        if (ins == 0x02) {
            short count = (short) (buffer[ISO7816.OFFSET_LC] & 0xFF);
            Util.arrayCopyNonAtomic(work, p1p2, buffer, (short) 0, count);
            return count;
        }
        short length = apdu.setIncomingAndReceive();
        if (ins == 0x01) {
            Util.arrayCopyNonAtomic(buffer, ISO7816.OFFSET_CDATA, work, p1p2, length);
            return 0;
        }
        short first = length >= 2 ? Util.getShort(buffer, ISO7816.OFFSET_CDATA) : 0;
        short second = length >= 4 ? Util.getShort(buffer, (short) (ISO7816.OFFSET_CDATA + 2)) : 0;
        short third = length >= 6 ? Util.getShort(buffer, (short) (ISO7816.OFFSET_CDATA + 4)) : 0;
        short fourth = length >= 8 ? Util.getShort(buffer, (short) (ISO7816.OFFSET_CDATA + 6)) : 0;
        switch ((byte) (ins & 0xF0)) {
            case 0x10:
                return ofKey(ins, slot, number, first, second, buffer);
            case 0x20:
                return ofSignature(ins, slot, number, first, second, third, fourth, buffer);
            case 0x30:
                return ofCipher(ins, slot, number, first, second, third, buffer);
            case 0x40:
                return ofPair(ins, slot, number, first);
            case 0x50:
                return ofAgreement(ins, slot, number, first, second, third, buffer);
            default:
                ISOException.throwIt(ISO7816.SW_INS_NOT_SUPPORTED);
                return 0;
        }
    }

    private static short told(short value, byte[] buffer) {
        Util.setShort(buffer, (short) 0, value);
        return 2;
    }

    private short ofKey(byte ins, byte slot, byte number, short first, short second, byte[] buffer) {
        switch (ins) {
            case 0x10:
                keys[slot] = KeyBuilder.buildKey(number, first, false);
                return 0;
            case 0x11:
                set(keys[slot], number, first, second);
                return 0;
            case 0x12:
                return told(get(keys[slot], number, first), buffer);
            case 0x13:
                buffer[0] = keys[slot].getType();
                Util.setShort(buffer, (short) 1, keys[slot].getSize());
                buffer[3] = keys[slot].isInitialized() ? (byte) 1 : 0;
                return 4;
            case 0x14:
                keys[slot].clearKey();
                return 0;
            default:
                ((ECKey) keys[slot]).copyDomainParametersFrom((ECKey) keys[number]);
                return 0;
        }
    }

    private void set(Key key, byte part, short offset, short length) {
        switch (part) {
            case 0:
                if (key instanceof RSAPublicKey) {
                    ((RSAPublicKey) key).setModulus(work, offset, length);
                } else {
                    ((RSAPrivateKey) key).setModulus(work, offset, length);
                }
                break;
            case 1:
                if (key instanceof RSAPublicKey) {
                    ((RSAPublicKey) key).setExponent(work, offset, length);
                } else {
                    ((RSAPrivateKey) key).setExponent(work, offset, length);
                }
                break;
            case 2:
                ((RSAPrivateCrtKey) key).setP(work, offset, length);
                break;
            case 3:
                ((RSAPrivateCrtKey) key).setQ(work, offset, length);
                break;
            case 4:
                ((RSAPrivateCrtKey) key).setPQ(work, offset, length);
                break;
            case 5:
                ((RSAPrivateCrtKey) key).setDP1(work, offset, length);
                break;
            case 6:
                ((RSAPrivateCrtKey) key).setDQ1(work, offset, length);
                break;
            case 8:
                ((ECKey) key).setFieldFP(work, offset, length);
                break;
            case 9:
                ((ECKey) key).setA(work, offset, length);
                break;
            case 10:
                ((ECKey) key).setB(work, offset, length);
                break;
            case 11:
                ((ECKey) key).setG(work, offset, length);
                break;
            case 12:
                ((ECKey) key).setR(work, offset, length);
                break;
            case 13:
                ((ECKey) key).setK(Util.getShort(work, offset));
                break;
            case 14:
                ((ECPublicKey) key).setW(work, offset, length);
                break;
            default:
                ((ECPrivateKey) key).setS(work, offset, length);
        }
    }

    private short get(Key key, byte part, short offset) {
        switch (part) {
            case 0:
                return key instanceof RSAPublicKey ? ((RSAPublicKey) key).getModulus(work, offset) : ((RSAPrivateKey) key).getModulus(work, offset);
            case 1:
                return key instanceof RSAPublicKey ? ((RSAPublicKey) key).getExponent(work, offset) : ((RSAPrivateKey) key).getExponent(work, offset);
            case 2:
                return ((RSAPrivateCrtKey) key).getP(work, offset);
            case 3:
                return ((RSAPrivateCrtKey) key).getQ(work, offset);
            case 4:
                return ((RSAPrivateCrtKey) key).getPQ(work, offset);
            case 5:
                return ((RSAPrivateCrtKey) key).getDP1(work, offset);
            case 6:
                return ((RSAPrivateCrtKey) key).getDQ1(work, offset);
            case 8:
                return ((ECKey) key).getField(work, offset);
            case 9:
                return ((ECKey) key).getA(work, offset);
            case 10:
                return ((ECKey) key).getB(work, offset);
            case 11:
                return ((ECKey) key).getG(work, offset);
            case 12:
                return ((ECKey) key).getR(work, offset);
            case 13:
                return ((ECKey) key).getK();
            case 14:
                return ((ECPublicKey) key).getW(work, offset);
            default:
                return ((ECPrivateKey) key).getS(work, offset);
        }
    }

    private short ofSignature(byte ins, byte slot, byte number, short first, short second, short third, short fourth, byte[] buffer) {
        switch (ins) {
            case 0x20:
                signatures[slot] = Signature.getInstance(number, false);
                return 0;
            case 0x21:
                signatures[slot].init(keys[first], number);
                return 0;
            case 0x22:
                signatures[slot].update(work, first, second);
                return 0;
            case 0x23:
                return told(signatures[slot].sign(work, first, second, work, third), buffer);
            case 0x24:
                return told(signatures[slot].verify(work, first, second, work, third, fourth) ? (short) 1 : 0, buffer);
            default:
                return told(signatures[slot].getLength(), buffer);
        }
    }

    private short ofCipher(byte ins, byte slot, byte number, short first, short second, short third, byte[] buffer) {
        switch (ins) {
            case 0x30:
                ciphers[slot] = Cipher.getInstance(number, false);
                return 0;
            case 0x31:
                ciphers[slot].init(keys[first], number);
                return 0;
            case 0x32:
                return told(ciphers[slot].update(work, first, second, work, third), buffer);
            default:
                return told(ciphers[slot].doFinal(work, first, second, work, third), buffer);
        }
    }

    private short ofPair(byte ins, byte slot, byte number, short first) {
        switch (ins) {
            case 0x40:
                pairs[slot] = new KeyPair(number, first);
                return 0;
            case 0x41:
                pairs[slot] = new KeyPair((PublicKey) keys[number], (PrivateKey) keys[first]);
                return 0;
            case 0x42:
                pairs[slot].genKeyPair();
                return 0;
            case 0x43:
                keys[number] = pairs[slot].getPublic();
                return 0;
            default:
                keys[number] = pairs[slot].getPrivate();
                return 0;
        }
    }

    private short ofAgreement(byte ins, byte slot, byte number, short first, short second, short third, byte[] buffer) {
        switch (ins) {
            case 0x50:
                agreements[slot] = KeyAgreement.getInstance(number, false);
                return 0;
            case 0x51:
                agreements[slot].init((PrivateKey) keys[number]);
                return 0;
            case 0x52:
                return told(agreements[slot].generateSecret(work, first, second, work, third), buffer);
            default:
                return told(agreements[slot].getAlgorithm(), buffer);
        }
    }
}
