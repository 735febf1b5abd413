package hardened;

import javacard.framework.APDU;
import javacard.framework.Applet;
import javacard.framework.ISO7816;
import javacard.framework.ISOException;
import javacard.framework.JCSystem;
import javacard.framework.Util;

/**
 * The PIN check of examples/pincheck so that no single fault lets a wrong PIN pass: hardened.attacks lists what each does.
 *
 * What it does for that:
 *   - a guess is counted before it is compared, and the counter is read again after it was written;
 *   - the PIN is compared twice, and each comparison sets its own mark;
 *   - no mark is 0, 1 or another value that a fault leaves: that the PIN is right is said by 5A3C and 695A, together;
 *   - the secret is given only where both marks are read, one after the other.
 *
 * Its commands have the class 80.
 *   20 VERIFY  with a PIN of four bytes as data: refused by 6983 once three guesses were wrong, and by 6982 where this one is
 *   30 SECRET  answers four bytes, once the PIN was verified since the last reset or SELECT; else 6982
 */
public class Hardened extends Applet {
    private static final byte VERIFY = 0x20;
    private static final byte SECRET = 0x30;
    private static final byte MOST = 3;
    private static final short LENGTH = 4;
    private static final short FIRST = 0x5A3C;
    private static final short SECOND = 0x695A;

    private final byte[] pin = {0x31, 0x32, 0x33, 0x34};
    private final byte[] secret = {0x53, 0x45, 0x43, 0x31};
    private final short[] marks = JCSystem.makeTransientShortArray((short) 2, JCSystem.CLEAR_ON_DESELECT);
    private byte triesLeft = MOST;

    public static void install(byte[] bArray, short bOffset, byte bLength) {
        new Hardened().register(bArray, (short) (bOffset + 1), bArray[bOffset]);
    }

    public void process(APDU apdu) {
        if (selectingApplet()) {
            return;
        }
        byte[] buffer = apdu.getBuffer();
        switch (buffer[ISO7816.OFFSET_INS]) {
            case VERIFY:
                apdu.setIncomingAndReceive();
                verify(buffer);
                break;
            case SECRET:
                answer(apdu, buffer);
                break;
            default:
                ISOException.throwIt(ISO7816.SW_INS_NOT_SUPPORTED);
        }
    }

    private void verify(byte[] buffer) {
        marks[0] = 0;
        marks[1] = 0;
        byte left = triesLeft;
        if (left <= 0) {
            ISOException.throwIt(ISO7816.SW_FILE_INVALID);
        }
        triesLeft = (byte) (left - 1);
        if ((byte) (triesLeft + 1) != left) {
            ISOException.throwIt(ISO7816.SW_UNKNOWN);
        }
        if (Util.arrayCompare(buffer, ISO7816.OFFSET_CDATA, pin, (short) 0, LENGTH) != 0) {
            ISOException.throwIt(ISO7816.SW_SECURITY_STATUS_NOT_SATISFIED);
        }
        marks[0] = FIRST;
        if (Util.arrayCompare(pin, (short) 0, buffer, ISO7816.OFFSET_CDATA, LENGTH) == 0) {
            marks[1] = SECOND;
            triesLeft = MOST;
            return;
        }
        marks[0] = 0;
        ISOException.throwIt(ISO7816.SW_SECURITY_STATUS_NOT_SATISFIED);
    }

    private void answer(APDU apdu, byte[] buffer) {
        if (marks[0] != FIRST) {
            ISOException.throwIt(ISO7816.SW_SECURITY_STATUS_NOT_SATISFIED);
        }
        if (marks[1] == SECOND) {
            Util.arrayCopyNonAtomic(secret, (short) 0, buffer, (short) 0, LENGTH);
            apdu.setOutgoingAndSend((short) 0, LENGTH);
            return;
        }
        ISOException.throwIt(ISO7816.SW_SECURITY_STATUS_NOT_SATISFIED);
    }
}
