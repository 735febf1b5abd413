package sizes;

import javacard.framework.APDU;
import javacard.framework.Applet;
import javacard.framework.JCSystem;
import javacard.framework.Util;
import javacardx.apdu.ExtendedLength;

/** Each command answers the bytes of its data, those of the APDU buffer, the most that a transaction takes, and free transient cells. */
public class Sizes extends Applet implements ExtendedLength {
    public static void install(byte[] parameters, short offset, byte length) {
        new Sizes().register();
    }

    public void process(APDU apdu) {
        if (selectingApplet()) {
            return;
        }
        byte[] buffer = apdu.getBuffer();
        apdu.setIncomingAndReceive();
        Util.setShort(buffer, (short) 0, apdu.getIncomingLength());
        Util.setShort(buffer, (short) 2, (short) buffer.length);
        Util.setShort(buffer, (short) 4, JCSystem.getMaxCommitCapacity());
        Util.setShort(buffer, (short) 6, JCSystem.getAvailableMemory(JCSystem.MEMORY_TYPE_TRANSIENT_DESELECT));
        apdu.setOutgoingAndSend((short) 0, (short) 8);
    }
}
