package careless;

import javacard.framework.APDU;
import javacard.framework.Applet;
import javacard.framework.ISO7816;
import javacard.framework.ISOException;
import javacard.framework.Util;

/**
 * A purse that forgot the transaction: the same log as that of the purse beside it, and a cut at the wrong write leaves a balance
 * that is not in the log.
 *
 * Its commands have the class 80, and mean what they mean there: 30 CREDIT, 40 DEBIT, 50 BALANCE, 60 LOG. There is no PIN.
 */
public class CarelessPurse extends Applet {
    private static final byte CREDIT = 0x30;
    private static final byte DEBIT = 0x40;
    private static final byte BALANCE = 0x50;
    private static final byte LOG = 0x60;
    private static final byte LINES = 4;
    private static final short MOST_CHANGES = 32767; // one less than a multiple of LINES

    private short balance;
    private short changes;
    private final short[] amounts = new short[LINES];
    private final short[] balances = new short[LINES];

    public static void install(byte[] bArray, short bOffset, byte bLength) {
        new CarelessPurse().register(bArray, (short) (bOffset + 1), bArray[bOffset]);
    }

    public void process(APDU apdu) {
        if (selectingApplet()) {
            return;
        }
        byte[] buffer = apdu.getBuffer();
        switch (buffer[ISO7816.OFFSET_INS]) {
            case CREDIT:
                apdu.setIncomingAndReceive();
                change(Util.getShort(buffer, ISO7816.OFFSET_CDATA));
                break;
            case DEBIT:
                apdu.setIncomingAndReceive();
                change((short) -Util.getShort(buffer, ISO7816.OFFSET_CDATA));
                break;
            case BALANCE:
                send(apdu, balance, changes);
                break;
            case LOG:
                short line = (short) ((short) (changes - 1 - buffer[ISO7816.OFFSET_P1]) % LINES);
                send(apdu, amounts[line], balances[line]);
                break;
            default:
                ISOException.throwIt(ISO7816.SW_INS_NOT_SUPPORTED);
        }
    }

    /** Four writes, and the power can be cut between any two of them. */
    private void change(short amount) {
        balance += amount;
        short line = (short) (changes % LINES);
        amounts[line] = amount;
        balances[line] = balance;
        changes = changes == MOST_CHANGES ? LINES : (short) (changes + 1);
    }

    private void send(APDU apdu, short first, short second) {
        byte[] buffer = apdu.getBuffer();
        Util.setShort(buffer, (short) 0, first);
        Util.setShort(buffer, (short) 2, second);
        apdu.setOutgoingAndSend((short) 0, (short) 4);
    }
}
