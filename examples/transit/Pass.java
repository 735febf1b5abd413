package transit;

import javacard.framework.APDU;
import javacard.framework.Applet;
import javacard.framework.ISO7816;
import javacard.framework.ISOException;
import javacard.framework.Util;

/**
 * A pass for trips, which has two copies of its state and no transaction.
 *
 * A change writes the older copy. While it is written its check byte is 0, and a good copy never has 0 there. So a cut leaves the
 * newer copy as it was, and the older one is good again only after its last write.
 *
 * Its commands have the class 80.
 *   10 ADD      with P1 as a number of trips
 *   20 RIDE     with P1 as a station: takes one trip
 *   30 STATE    answers the trips that are left, as a short, and the last station
 */
public class Pass extends Applet {
    private static final byte ADD = 0x10;
    private static final byte RIDE = 0x20;
    private static final byte STATE = 0x30;

    // Places in a copy. The number of a copy is one more than that of the copy before it.
    private static final byte NUMBER = 0;
    private static final byte TRIPS = 1;
    private static final byte STATION = 3;
    private static final byte CHECK = 4;
    private static final byte SIZE = 5;

    private static final short MOST = 1000;
    private static final short SW_NO_TRIPS = 0x6A84;

    private byte[] first = new byte[SIZE];
    private byte[] second = new byte[SIZE];

    private Pass() {
        first[CHECK] = check(first);
    }

    public static void install(byte[] bArray, short bOffset, byte bLength) {
        new Pass().register(bArray, (short) (bOffset + 1), bArray[bOffset]);
    }

    public void process(APDU apdu) {
        if (selectingApplet()) {
            return;
        }
        byte[] buffer = apdu.getBuffer();
        byte[] newer = newer();
        short trips = Util.getShort(newer, TRIPS);
        switch (buffer[ISO7816.OFFSET_INS]) {
            case ADD:
                short added = (short) (buffer[ISO7816.OFFSET_P1] & 0xFF);
                if (added > (short) (MOST - trips)) {
                    ISOException.throwIt(ISO7816.SW_WRONG_DATA);
                }
                write(newer, (short) (trips + added), newer[STATION]);
                break;
            case RIDE:
                if (trips == 0) {
                    ISOException.throwIt(SW_NO_TRIPS);
                }
                write(newer, (short) (trips - 1), buffer[ISO7816.OFFSET_P1]);
                break;
            case STATE:
                Util.setShort(buffer, (short) 0, trips);
                buffer[2] = newer[STATION];
                apdu.setOutgoingAndSend((short) 0, (short) 3);
                break;
            default:
                ISOException.throwIt(ISO7816.SW_INS_NOT_SUPPORTED);
        }
    }

    /** Writes the copy that is not the newer one, a byte at a time. */
    private void write(byte[] newer, short trips, byte station) {
        byte[] copy = newer == first ? second : first;
        copy[CHECK] = 0;
        copy[NUMBER] = (byte) (newer[NUMBER] + 1);
        copy[TRIPS] = (byte) (trips >> 8);
        copy[TRIPS + 1] = (byte) trips;
        copy[STATION] = station;
        copy[CHECK] = check(copy);
    }

    /** The good copy, or of two good ones that with the later number. */
    private byte[] newer() {
        if (!isGood(first)) {
            return second;
        }
        if (!isGood(second)) {
            return first;
        }
        return (byte) (second[NUMBER] - first[NUMBER]) > 0 ? second : first;
    }

    private static boolean isGood(byte[] copy) {
        return copy[CHECK] == check(copy);
    }

    /** A sum over the bytes before the check byte, from 1 to 255. */
    private static byte check(byte[] copy) {
        short sum = 0;
        for (byte at = 0; at < CHECK; at++) {
            sum = (short) ((short) (sum * 3 + (copy[at] & 0xFF)) % 255);
        }
        return (byte) (sum + 1);
    }
}
