package library;

import javacard.framework.APDU;
import javacard.framework.Applet;
import javacard.framework.ISO7816;
import javacard.framework.Util;

/** What an applet of another package extends: the command's instruction is the number of a test, its data are a short. */
public abstract class Base extends Applet {
    protected Base() {
    }

    protected abstract short answer(byte which, short a);

    public void process(APDU apdu) {
        if (selectingApplet()) {
            return;
        }
        byte[] buffer = apdu.getBuffer();
        apdu.setIncomingAndReceive();
        short result = answer(buffer[ISO7816.OFFSET_INS], Util.getShort(buffer, ISO7816.OFFSET_CDATA));
        Util.setShort(buffer, (short) 0, result);
        apdu.setOutgoingAndSend((short) 0, (short) 2);
    }
}
