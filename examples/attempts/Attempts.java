package attempts;

import javacard.framework.APDU;
import javacard.framework.Applet;
import javacard.framework.ISO7816;
import javacard.framework.ISOException;
import javacard.framework.JCSystem;
import javacard.framework.Util;

/**
 * Two counters of failed attempts, of which one outlasts the transaction in which it counts.
 *
 * A code is compared within a transaction that a wrong one ends by an exception, so that all is taken back. `kept` is set by
 * Util.arrayFillNonAtomic, which no abort takes back; `lost` is set as any element, and forgets each failed attempt.
 *
 * Its commands have the class 80.
 *   20 UNLOCK    with a code of two bytes as data: refused by 6983 once three attempts have failed, and by 6982 where it is wrong
 *   30 ATTEMPTS  answers the counter that outlasts, the one that does not, and how often the right code came, modulo 256
 */
public class Attempts extends Applet {
    private static final byte UNLOCK = 0x20;
    private static final byte ATTEMPTS = 0x30;
    private static final byte MOST = 3;
    private static final short CODE = 0x1234;

    private final byte[] kept = new byte[1];
    private final byte[] lost = new byte[1];
    private byte unlocked;

    public static void install(byte[] bArray, short bOffset, byte bLength) {
        new Attempts().register(bArray, (short) (bOffset + 1), bArray[bOffset]);
    }

    public void process(APDU apdu) {
        if (selectingApplet()) {
            return;
        }
        byte[] buffer = apdu.getBuffer();
        switch (buffer[ISO7816.OFFSET_INS]) {
            case UNLOCK:
                apdu.setIncomingAndReceive();
                unlock(Util.getShort(buffer, ISO7816.OFFSET_CDATA));
                break;
            case ATTEMPTS:
                buffer[0] = kept[0];
                buffer[1] = lost[0];
                buffer[2] = unlocked;
                apdu.setOutgoingAndSend((short) 0, (short) 3);
                break;
            default:
                ISOException.throwIt(ISO7816.SW_INS_NOT_SUPPORTED);
        }
    }

    /** The attempt is counted before the code is compared: whoever cuts the power after the comparison gains none. */
    private void unlock(short code) {
        if (kept[0] == MOST) {
            ISOException.throwIt(ISO7816.SW_FILE_INVALID);
        }
        JCSystem.beginTransaction();
        Util.arrayFillNonAtomic(kept, (short) 0, (short) 1, (byte) (kept[0] + 1));
        lost[0]++;
        if (code != CODE) {
            ISOException.throwIt(ISO7816.SW_SECURITY_STATUS_NOT_SATISFIED);
        }
        kept[0] = 0;
        lost[0] = 0;
        unlocked++;
        JCSystem.commitTransaction();
    }
}
