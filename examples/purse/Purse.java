package purse;

import javacard.framework.APDU;
import javacard.framework.Applet;
import javacard.framework.ISO7816;
import javacard.framework.ISOException;
import javacard.framework.JCSystem;
import javacard.framework.OwnerPIN;
import javacard.framework.Util;

/**
 * A purse with a PIN and a log.
 *
 * The balance is always the one in the log's newest line, and each line's balance is that of the line before and the amount. A
 * change of the balance takes several writes, so it is a transaction: a cut anywhere in it leaves all as it was.
 *
 * Its commands have the class 80. Amounts and balances are shorts.
 *   20 VERIFY    with a PIN as data
 *   30 CREDIT    with an amount as data, after VERIFY
 *   40 DEBIT     with an amount as data, after VERIFY
 *   50 BALANCE   answers the balance and the number of changes; after 32767 comes 4, so that the log goes on
 *   60 LOG       with P1 as the age of a line, 0 for the newest: answers the amount and the balance after it
 */
public class Purse extends Applet {
    private static final byte CLASS = (byte) 0x80;
    private static final byte VERIFY = 0x20;
    private static final byte CREDIT = 0x30;
    private static final byte DEBIT = 0x40;
    private static final byte BALANCE = 0x50;
    private static final byte LOG = 0x60;

    private static final short SW_WRONG_PIN = 0x63C0; // and the tries that are left
    private static final short SW_TOO_MUCH = 0x6A84;

    private static final byte TRIES = 3;
    private static final byte LONGEST_PIN = 8;
    private static final short MOST = 30000;
    private static final byte LINES = 4;
    private static final short MOST_CHANGES = 32767; // one less than a multiple of LINES
    private static final byte[] FIRST_PIN = {'1', '2', '3', '4'};

    private final OwnerPIN pin;
    private short balance;
    private short changes;
    private final short[] amounts = new short[LINES];
    private final short[] balances = new short[LINES];

    private Purse(byte[] parameters, short dataOffset, byte dataLength) {
        pin = new OwnerPIN(TRIES, LONGEST_PIN);
        if (dataLength > 0) {
            pin.update(parameters, dataOffset, dataLength);
        } else {
            pin.update(FIRST_PIN, (short) 0, (byte) FIRST_PIN.length);
        }
    }

    /** The parameters are the instance's AID, control information and data, each behind its length. The data are the PIN. */
    public static void install(byte[] bArray, short bOffset, byte bLength) {
        byte aidLength = bArray[bOffset];
        short control = (short) (bOffset + 1 + aidLength);
        short data = (short) (control + 1 + bArray[control]);
        Purse purse = new Purse(bArray, (short) (data + 1), bArray[data]);
        purse.register(bArray, (short) (bOffset + 1), aidLength);
    }

    public void deselect() {
        pin.reset();
    }

    public void process(APDU apdu) {
        if (selectingApplet()) {
            return;
        }
        byte[] buffer = apdu.getBuffer();
        if (buffer[ISO7816.OFFSET_CLA] != CLASS) {
            ISOException.throwIt(ISO7816.SW_CLA_NOT_SUPPORTED);
        }
        switch (buffer[ISO7816.OFFSET_INS]) {
            case VERIFY:
                verify(buffer, (byte) apdu.setIncomingAndReceive());
                break;
            case CREDIT:
                credit(amount(apdu, buffer));
                break;
            case DEBIT:
                debit(amount(apdu, buffer));
                break;
            case BALANCE:
                send(apdu, balance, changes);
                break;
            case LOG:
                short line = line(buffer[ISO7816.OFFSET_P1]);
                send(apdu, amounts[line], balances[line]);
                break;
            default:
                ISOException.throwIt(ISO7816.SW_INS_NOT_SUPPORTED);
        }
    }

    private void verify(byte[] buffer, byte length) {
        if (!pin.check(buffer, ISO7816.OFFSET_CDATA, length)) {
            ISOException.throwIt((short) (SW_WRONG_PIN | pin.getTriesRemaining()));
        }
    }

    /** The amount in a command, which only a user who told the PIN may change the balance by. */
    private short amount(APDU apdu, byte[] buffer) {
        if (!pin.isValidated()) {
            ISOException.throwIt(ISO7816.SW_SECURITY_STATUS_NOT_SATISFIED);
        }
        if (apdu.setIncomingAndReceive() != 2) {
            ISOException.throwIt(ISO7816.SW_WRONG_LENGTH);
        }
        short amount = Util.getShort(buffer, ISO7816.OFFSET_CDATA);
        if (amount <= 0) {
            ISOException.throwIt(ISO7816.SW_WRONG_DATA);
        }
        return amount;
    }

    private void credit(short amount) {
        if (amount > (short) (MOST - balance)) {
            ISOException.throwIt(SW_TOO_MUCH);
        }
        change(amount);
    }

    private void debit(short amount) {
        if (amount > balance) {
            ISOException.throwIt(SW_TOO_MUCH);
        }
        change((short) -amount);
    }

    private void change(short amount) {
        JCSystem.beginTransaction();
        balance += amount;
        short line = (short) (changes % LINES);
        amounts[line] = amount;
        balances[line] = balance;
        changes = changes == MOST_CHANGES ? LINES : (short) (changes + 1);
        JCSystem.commitTransaction();
    }

    /** Where the log has the line of this age. */
    private short line(byte age) {
        if (age < 0 || age >= LINES || age >= changes) {
            ISOException.throwIt(ISO7816.SW_RECORD_NOT_FOUND);
        }
        return (short) ((short) (changes - 1 - age) % LINES);
    }

    private void send(APDU apdu, short first, short second) {
        byte[] buffer = apdu.getBuffer();
        Util.setShort(buffer, (short) 0, first);
        Util.setShort(buffer, (short) 2, second);
        apdu.setOutgoingAndSend((short) 0, (short) 4);
    }
}
