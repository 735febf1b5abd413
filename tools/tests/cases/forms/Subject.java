package forms;

import javacard.framework.APDU;
import javacard.framework.Applet;
import javacard.framework.ISO7816;
import javacard.framework.Util;

/** Asks on a card: the command's instruction is the number of a test, its data are a short. */
public class Subject extends Applet {
    private final Forms core = new Forms();

    public static void install(byte[] bArray, short bOffset, byte bLength) {
        new Subject().register();
    }

    public void process(APDU apdu) {
        if (selectingApplet()) {
            return;
        }
        byte[] buffer = apdu.getBuffer();
        apdu.setIncomingAndReceive();
        short result = core.run(buffer[ISO7816.OFFSET_INS], Util.getShort(buffer, ISO7816.OFFSET_CDATA));
        Util.setShort(buffer, (short) 0, result);
        apdu.setOutgoingAndSend((short) 0, (short) 2);
    }
}
