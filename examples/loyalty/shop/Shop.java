package shop;

import javacard.framework.AID;
import javacard.framework.APDU;
import javacard.framework.Applet;
import javacard.framework.ISO7816;
import javacard.framework.ISOException;
import javacard.framework.JCSystem;
import javacard.framework.Util;

import loyalty.Points;

/**
 * A shop, which gives one point for each ten that are paid.
 *
 * Its one command, 80 10 with an amount as data, answers the points that there are then.
 */
public class Shop extends Applet {
    private static final byte PAY = 0x10;
    private static final byte[] LOYALTY = {(byte) 0xF0, 'l', 'o', 'y', 'a', 'l', 't', 'y', 0x01};

    public static void install(byte[] bArray, short bOffset, byte bLength) {
        new Shop().register(bArray, (short) (bOffset + 1), bArray[bOffset]);
    }

    public void process(APDU apdu) {
        if (selectingApplet()) {
            return;
        }
        byte[] buffer = apdu.getBuffer();
        if (buffer[ISO7816.OFFSET_INS] != PAY) {
            ISOException.throwIt(ISO7816.SW_INS_NOT_SUPPORTED);
        }
        if (apdu.setIncomingAndReceive() != 2) {
            ISOException.throwIt(ISO7816.SW_WRONG_LENGTH);
        }
        short amount = Util.getShort(buffer, ISO7816.OFFSET_CDATA);
        Util.setShort(buffer, (short) 0, points().add((short) (amount / 10)));
        apdu.setOutgoingAndSend((short) 0, (short) 2);
    }

    /** The loyalty applet's interface. Its AID object is the runtime environment's, and every applet may have it. */
    private static Points points() {
        AID loyalty = JCSystem.lookupAID(LOYALTY, (short) 0, (byte) LOYALTY.length);
        if (loyalty == null) {
            ISOException.throwIt(ISO7816.SW_CONDITIONS_NOT_SATISFIED);
        }
        Points points = (Points) JCSystem.getAppletShareableInterfaceObject(loyalty, (byte) 0);
        if (points == null) {
            ISOException.throwIt(ISO7816.SW_SECURITY_STATUS_NOT_SATISFIED);
        }
        return points;
    }
}
