package pincheck;

import javacard.framework.APDU;
import javacard.framework.Applet;
import javacard.framework.ISO7816;
import javacard.framework.ISOException;
import javacard.framework.JCSystem;
import javacard.framework.Util;

/**
 * A PIN check as it comes to mind first: one comparison, and a counter that is set after it.
 *
 * It is right as long as each instruction is carried out. A single fault at one of some instructions lets a wrong PIN pass, and one at
 * others gives a guess that is not counted: pincheck.attacks lists them. examples/hardened has the same commands and checks twice.
 *
 * Its commands have the class 80.
 *   20 VERIFY  with a PIN of four bytes as data: refused by 6983 once three guesses were wrong, and by 6982 where this one is
 *   30 SECRET  answers four bytes, once the PIN was verified since the last reset or SELECT; else 6982
 */
public class PinCheck extends Applet {
    private static final byte VERIFY = 0x20;
    private static final byte SECRET = 0x30;
    private static final byte MOST = 3;
    private static final short LENGTH = 4;

    private final byte[] pin = {0x31, 0x32, 0x33, 0x34};
    private final byte[] secret = {0x53, 0x45, 0x43, 0x31};
    private final boolean[] verified = JCSystem.makeTransientBooleanArray((short) 1, JCSystem.CLEAR_ON_DESELECT);
    private byte triesLeft = MOST;

    public static void install(byte[] bArray, short bOffset, byte bLength) {
        new PinCheck().register(bArray, (short) (bOffset + 1), bArray[bOffset]);
    }

    public void process(APDU apdu) {
        if (selectingApplet()) {
            return;
        }
        byte[] buffer = apdu.getBuffer();
        switch (buffer[ISO7816.OFFSET_INS]) {
            case VERIFY:
                apdu.setIncomingAndReceive();
                verify(buffer);
                break;
            case SECRET:
                answer(apdu, buffer);
                break;
            default:
                ISOException.throwIt(ISO7816.SW_INS_NOT_SUPPORTED);
        }
    }

    private void verify(byte[] buffer) {
        if (triesLeft == 0) {
            ISOException.throwIt(ISO7816.SW_FILE_INVALID);
        }
        if (Util.arrayCompare(buffer, ISO7816.OFFSET_CDATA, pin, (short) 0, LENGTH) != 0) {
            triesLeft--;
            ISOException.throwIt(ISO7816.SW_SECURITY_STATUS_NOT_SATISFIED);
        }
        triesLeft = MOST;
        verified[0] = true;
    }

    private void answer(APDU apdu, byte[] buffer) {
        if (!verified[0]) {
            ISOException.throwIt(ISO7816.SW_SECURITY_STATUS_NOT_SATISFIED);
        }
        Util.arrayCopyNonAtomic(secret, (short) 0, buffer, (short) 0, LENGTH);
        apdu.setOutgoingAndSend((short) 0, LENGTH);
    }
}
