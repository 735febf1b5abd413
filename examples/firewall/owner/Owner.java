package owner;

import javacard.framework.APDU;
import javacard.framework.Applet;
import javacard.framework.JCSystem;

import vault.Alarm;
import vault.Box;
import vault.Keys;

/** Leaves objects of its own where the intruder finds them. The firewall protects them all the same. */
public class Owner extends Applet implements Keys {
    private final byte[] counts = JCSystem.makeTransientByteArray((short) 1, JCSystem.CLEAR_ON_DESELECT);

    private Owner() {
        Box.box = new Box();
        Box.thing = Box.box;
        Box.door = Box.box;
        Box.bytes = new byte[1];
        Box.keys = this;
        Box.alarm = new Alarm();
    }

    public static void install(byte[] bArray, short bOffset, byte bLength) {
        new Owner().register(bArray, (short) (bOffset + 1), bArray[bOffset]);
    }

    public void process(APDU apdu) {
    }

    public short turn() {
        return 7;
    }

    public byte count() {
        return counts[0];
    }
}
