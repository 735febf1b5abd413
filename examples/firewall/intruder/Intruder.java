package intruder;

import javacard.framework.APDU;
import javacard.framework.Applet;
import javacard.framework.ISO7816;
import javacard.framework.ISOException;
import javacard.framework.JCSystem;

import vault.Alarm;
import vault.Box;
import vault.Door;
import vault.Keys;

/**
 * Tries what each rule of the firewall is about.
 *
 * Its one command, 80 10, has the number of a rule as P1. With P2 0 it uses the owner's objects, with P2 1 objects of its own: the
 * same instructions, and another context. It answers 00 where they were carried out, 01 where a SecurityException came.
 */
public class Intruder extends Applet implements Keys {
    private static final byte TRY = 0x10;
    private static final byte DONE = 0;
    private static final byte REFUSED = 1;

    private final Box box = new Box();
    private final byte[] bytes = new byte[1];
    private final Alarm alarm = new Alarm();
    private final byte[] counts = JCSystem.makeTransientByteArray((short) 1, JCSystem.CLEAR_ON_DESELECT);
    private byte[] kept;

    public static void install(byte[] bArray, short bOffset, byte bLength) {
        new Intruder().register(bArray, (short) (bOffset + 1), bArray[bOffset]);
    }

    public void process(APDU apdu) {
        if (selectingApplet()) {
            return;
        }
        byte[] buffer = apdu.getBuffer();
        if (buffer[ISO7816.OFFSET_INS] != TRY) {
            ISOException.throwIt(ISO7816.SW_INS_NOT_SUPPORTED);
        }
        byte outcome = DONE;
        try {
            attempt(buffer[ISO7816.OFFSET_P1], buffer[ISO7816.OFFSET_P2] != 0, buffer);
        } catch (SecurityException refusal) {
            outcome = REFUSED;
        }
        buffer[0] = outcome;
        apdu.setOutgoingAndSend((short) 0, (short) 1);
    }

    private void attempt(byte rule, boolean isOwn, byte[] buffer) {
        switch (rule) {
            case 1: // a static field
                Box.box = Box.box;
                break;
            case 2: // an element of an array
                byte[] array = isOwn ? bytes : Box.bytes;
                array[0]++;
                break;
            case 3: // an instance field
                (isOwn ? box : Box.box).number++;
                break;
            case 4: // a virtual call
                (isOwn ? box : Box.box).open();
                break;
            case 5: // a call of an interface that is not shareable
                Door door = isOwn ? box : Box.door;
                door.knock();
                break;
            case 6: // a call of an interface that is shareable
                Keys keys = isOwn ? this : Box.keys;
                keys.turn();
                break;
            case 7: // a throw
                try {
                    throw isOwn ? alarm : Box.alarm;
                } catch (Alarm caught) {
                    break;
                }
            case 8: // a question for the class
                Object thing = isOwn ? box : Box.thing;
                if (!(thing instanceof Box)) {
                    ISOException.throwIt(ISO7816.SW_DATA_INVALID);
                }
                break;
            case 9: // a reference to the APDU buffer, or to an array of its own, in a field
                kept = isOwn ? bytes : buffer;
                break;
            case 10: // an array that is cleared at a deselection of another applet than the selected one
                (isOwn ? this : Box.keys).count();
                break;
            default:
                ISOException.throwIt(ISO7816.SW_INCORRECT_P1P2);
        }
    }

    public short turn() {
        return 8;
    }

    public byte count() {
        return counts[0];
    }
}
