package newer;

import javacard.framework.AID;
import javacard.framework.APDU;
import javacard.framework.Applet;
import javacard.framework.AppletEvent;
import javacard.framework.ISO7816;
import javacard.framework.ISOException;
import javacard.framework.JCSystem;
import javacard.framework.MultiSelectable;
import javacard.framework.OwnerPIN;
import javacard.framework.SystemException;
import javacard.framework.UserException;
import javacard.framework.Util;
import javacard.security.Checksum;
import javacard.security.CryptoException;
import javacard.security.MessageDigest;
import javacard.security.RandomData;
import javacardx.apdu.ExtendedLength;

/** Calls what extended tables alone name. The instruction byte says which. */
public class Newer extends Applet implements MultiSelectable, AppletEvent, ExtendedLength {
    /** A PIN that is validated without its value. */
    static class OpenPIN extends OwnerPIN {
        OpenPIN() {
            super((byte) 3, (byte) 4);
        }

        void open(boolean flag) {
            setValidatedFlag(flag);
        }

        boolean isOpen() {
            return getValidatedFlag();
        }
    }

    private final byte[] bytes = new byte[8];
    private final OpenPIN pin = new OpenPIN();

    public static void install(byte[] array, short offset, byte length) {
        new Newer().register();
    }

    public boolean select(boolean isActive) {
        return false;
    }

    public void deselect(boolean isActive) {
    }

    public void uninstall() {
    }

    public void process(APDU apdu) {
        if (selectingApplet()) {
            return;
        }
        byte[] buffer = apdu.getBuffer();
        short first = buffer[ISO7816.OFFSET_P1];
        switch (buffer[ISO7816.OFFSET_INS]) {
            case 0:
                answer(apdu, JCSystem.getVersion(), Util.makeShort(JCSystem.getAssignedChannel(), APDU.getCLAChannel()));
                break;
            case 1:
                apdu.setIncomingAndReceive();
                answer(apdu, apdu.getIncomingLength(), apdu.getOffsetCdata());
                break;
            case 2:
                Util.arrayFill(bytes, (short) 1, (short) 6, (byte) first);
                apdu.setOutgoing();
                apdu.setOutgoingLength((short) 8);
                apdu.sendBytesLong(bytes, (short) 0, (short) 8);
                break;
            case 3:
                answer(apdu, states(apdu), apdu.getCurrentState());
                break;
            case 4:
                AID own = JCSystem.getAID();
                byte length = own.getPartialBytes((short) 5, bytes, (short) 0, (byte) 0);
                answer(apdu, told(own.partialEquals(buffer, ISO7816.OFFSET_CDATA, (byte) apdu.setIncomingAndReceive())), length);
                break;
            case 5:
                pin.open(first != 0);
                answer(apdu, told(pin.isOpen()), told(pin.isValidated()));
                break;
            case 6:
                answer(apdu, reason(), told(JCSystem.isObjectDeletionSupported()));
                break;
            case 7:
                answer(apdu, told(apdu.isISOInterindustryCLA()), told(apdu.isValidCLA()));
                break;
            case 8:
                answer(apdu, told(APDU.getCurrentAPDU() == apdu), told(APDU.getCurrentAPDUBuffer() == buffer));
                break;
            case 9:
                JCSystem.requestObjectDeletion();
                break;
            case 10:
                keep(buffer, apdu.setIncomingAndReceive(), (byte) first);
                answer(apdu, Util.getShort(bytes, (short) 1), Util.getShort(bytes, (short) 3));
                break;
            case 11:
                engine((byte) first);
                MessageDigest digest = MessageDigest.getInstance((byte) first, false);
                answer(apdu, digest.getAlgorithm(), digest.getLength());
                break;
            case 12:
                Checksum checksum = Checksum.getInstance(Checksum.ALG_ISO3309_CRC16, false);
                answer(apdu, checksum.doFinal(buffer, ISO7816.OFFSET_CDATA, apdu.setIncomingAndReceive(), bytes, (short) 0), Util.getShort(bytes, (short) 0));
                break;
            case 13:
                RandomData random = RandomData.getInstance(RandomData.ALG_SECURE_RANDOM);
                answer(apdu, random.getAlgorithm(), random.nextBytes(bytes, (short) 1, (short) 7));
                break;
            default:
                ISOException.throwIt(ISO7816.SW_INS_NOT_SUPPORTED);
        }
    }

    /** The states before and behind the data. */
    private short states(APDU apdu) {
        byte before = apdu.getCurrentState();
        apdu.setIncomingAndReceive();
        return Util.makeShort(before, apdu.getCurrentState());
    }

    /** Keeps the data, and two bytes after them, in a transaction that is aborted. */
    private void keep(byte[] buffer, short length, byte value) {
        JCSystem.beginTransaction();
        short end = Util.arrayCopyNonAtomic(buffer, ISO7816.OFFSET_CDATA, bytes, (short) 0, length);
        Util.arrayFillNonAtomic(bytes, end, (short) 2, value);
        JCSystem.abortTransaction();
    }

    /** The reason of what is thrown becomes the status word. */
    private static void engine(byte algorithm) {
        try {
            MessageDigest.getInstance(algorithm, false);
        } catch (CryptoException exception) {
            ISOException.throwIt(exception.getReason());
        }
    }

    /** The reason of an exception that has none. */
    private short reason() {
        try {
            throw new UserException();
        } catch (UserException exception) {
            return exception.getReason();
        }
    }

    private static short told(boolean flag) {
        return flag ? (short) 1 : (short) 0;
    }

    private static void answer(APDU apdu, short one, short other) {
        byte[] buffer = apdu.getBuffer();
        Util.setShort(buffer, (short) 0, one);
        Util.setShort(buffer, (short) 2, other);
        apdu.setOutgoingAndSend((short) 0, (short) 4);
    }
}
