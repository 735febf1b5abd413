package loyalty;

import javacard.framework.AID;
import javacard.framework.APDU;
import javacard.framework.Applet;
import javacard.framework.ISO7816;
import javacard.framework.ISOException;
import javacard.framework.JCSystem;
import javacard.framework.Shareable;
import javacard.framework.Util;

/**
 * Points, which one other applet may add over the shareable interface Points: the shop in the package beside this one.
 *
 * Its commands have the class 80.
 *   10 POINTS   answers the number of points
 *   20 SPEND    with P1 as a number of points
 */
public class Loyalty extends Applet implements Points {
    private static final byte POINTS = 0x10;
    private static final byte SPEND = 0x20;
    private static final short MOST = 10000;
    private static final short SW_TOO_MANY = 0x6A84;
    private static final byte[] SHOP = {(byte) 0xF0, 's', 'h', 'o', 'p', 0x01};

    private short points;

    public static void install(byte[] bArray, short bOffset, byte bLength) {
        new Loyalty().register(bArray, (short) (bOffset + 1), bArray[bOffset]);
    }

    /** The runtime environment asks for it as another applet wants the interface. */
    public Shareable getShareableInterfaceObject(AID client, byte parameter) {
        return isShop(client) ? this : null;
    }

    public short add(short more) {
        if (!isShop(JCSystem.getPreviousContextAID())) {
            ISOException.throwIt(ISO7816.SW_SECURITY_STATUS_NOT_SATISFIED);
        }
        if (more < 0 || more > (short) (MOST - points)) {
            ISOException.throwIt(SW_TOO_MANY);
        }
        points += more;
        return points;
    }

    public void process(APDU apdu) {
        if (selectingApplet()) {
            return;
        }
        byte[] buffer = apdu.getBuffer();
        switch (buffer[ISO7816.OFFSET_INS]) {
            case POINTS:
                Util.setShort(buffer, (short) 0, points);
                apdu.setOutgoingAndSend((short) 0, (short) 2);
                break;
            case SPEND:
                short spent = (short) (buffer[ISO7816.OFFSET_P1] & 0xFF);
                if (spent > points) {
                    ISOException.throwIt(SW_TOO_MANY);
                }
                points -= spent;
                break;
            default:
                ISOException.throwIt(ISO7816.SW_INS_NOT_SUPPORTED);
        }
    }

    private static boolean isShop(AID client) {
        return client != null && client.equals(SHOP, (short) 0, (byte) SHOP.length);
    }
}
