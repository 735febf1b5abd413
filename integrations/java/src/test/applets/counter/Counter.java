package counter;

import javacard.framework.APDU;
import javacard.framework.Applet;
import javacard.framework.ISO7816;
import javacard.framework.JCSystem;

/** One number, which INS 01 sets to P1 in a transaction, and which each command answers. */
public class Counter extends Applet {
    private short number;

    public static void install(byte[] parameters, short offset, byte length) {
        new Counter().register();
    }

    public void process(APDU apdu) {
        if (selectingApplet()) {
            return;
        }
        byte[] buffer = apdu.getBuffer();
        if (buffer[ISO7816.OFFSET_INS] == 1) {
            JCSystem.beginTransaction();
            number = buffer[ISO7816.OFFSET_P1];
            JCSystem.commitTransaction();
        }
        buffer[0] = (byte) number;
        apdu.setOutgoingAndSend((short) 0, (short) 1);
    }
}
