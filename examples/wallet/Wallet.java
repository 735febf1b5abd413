package wallet;

import javacard.framework.APDU;
import javacard.framework.Applet;
import javacard.framework.ISO7816;
import javacard.framework.ISOException;
import javacard.framework.OwnerPIN;

/**
 * The wallet that many introductions to Java Card begin with: a PIN, and a balance that is credited, debited and read.
 *
 * Its commands have the class B0. Amounts are bytes, the balance is a short.
 *   20 VERIFY       with the PIN as data
 *   30 CREDIT       with an amount as data, after VERIFY
 *   40 DEBIT        with an amount as data, after VERIFY
 *   50 GET BALANCE  answers the balance
 */
public class Wallet extends Applet {
    private static final byte CLASS = (byte) 0xB0;
    private static final byte VERIFY = 0x20;
    private static final byte CREDIT = 0x30;
    private static final byte DEBIT = 0x40;
    private static final byte GET_BALANCE = 0x50;

    private static final short MOST = 0x7FFF;
    private static final byte MOST_AT_ONCE = 127;
    private static final byte TRIES = 3;
    private static final byte LONGEST_PIN = 8;
    private static final byte[] FIRST_PIN = {'1', '2', '3', '4'};

    private static final short SW_VERIFICATION_FAILED = 0x6300;
    private static final short SW_PIN_VERIFICATION_REQUIRED = 0x6301;
    private static final short SW_INVALID_AMOUNT = 0x6A83;
    private static final short SW_EXCEEDS_MOST = 0x6A84;
    private static final short SW_NEGATIVE_BALANCE = 0x6A85;

    private final OwnerPIN pin;
    private short balance;

    /** The data for the instance stand behind its AID and its control information, each behind its length. They are the PIN. */
    private Wallet(byte[] bArray, short bOffset) {
        pin = new OwnerPIN(TRIES, LONGEST_PIN);
        short control = (short) (bOffset + 1 + bArray[bOffset]);
        short data = (short) (control + 1 + bArray[control]);
        if (bArray[data] > 0) {
            pin.update(bArray, (short) (data + 1), bArray[data]);
        } else {
            pin.update(FIRST_PIN, (short) 0, (byte) FIRST_PIN.length);
        }
        register();
    }

    public static void install(byte[] bArray, short bOffset, byte bLength) {
        new Wallet(bArray, bOffset);
    }

    /** A wallet whose PIN is blocked is not selected. */
    public boolean select() {
        return pin.getTriesRemaining() != 0;
    }

    public void deselect() {
        pin.reset();
    }

    public void process(APDU apdu) {
        byte[] buffer = apdu.getBuffer();
        if (apdu.isISOInterindustryCLA()) {
            if (buffer[ISO7816.OFFSET_INS] == ISO7816.INS_SELECT) {
                return;
            }
            ISOException.throwIt(ISO7816.SW_CLA_NOT_SUPPORTED);
        }
        if (buffer[ISO7816.OFFSET_CLA] != CLASS) {
            ISOException.throwIt(ISO7816.SW_CLA_NOT_SUPPORTED);
        }
        switch (buffer[ISO7816.OFFSET_INS]) {
            case VERIFY:
                verify(apdu);
                return;
            case CREDIT:
                credit(apdu);
                return;
            case DEBIT:
                debit(apdu);
                return;
            case GET_BALANCE:
                getBalance(apdu);
                return;
            default:
                ISOException.throwIt(ISO7816.SW_INS_NOT_SUPPORTED);
        }
    }

    private void verify(APDU apdu) {
        byte length = (byte) apdu.setIncomingAndReceive();
        if (!pin.check(apdu.getBuffer(), ISO7816.OFFSET_CDATA, length)) {
            ISOException.throwIt(SW_VERIFICATION_FAILED);
        }
    }

    private void credit(APDU apdu) {
        byte amount = amountOf(apdu);
        // MOST - amount does not leave the range of a short, as balance + amount may
        if (balance > (short) (MOST - amount)) {
            ISOException.throwIt(SW_EXCEEDS_MOST);
        }
        balance = (short) (balance + amount);
    }

    private void debit(APDU apdu) {
        byte amount = amountOf(apdu);
        if (balance < amount) {
            ISOException.throwIt(SW_NEGATIVE_BALANCE);
        }
        balance = (short) (balance - amount);
    }

    /** The amount of a command, which has to be one byte from 1 to MOST_AT_ONCE. */
    private byte amountOf(APDU apdu) {
        if (!pin.isValidated()) {
            ISOException.throwIt(SW_PIN_VERIFICATION_REQUIRED);
        }
        byte[] buffer = apdu.getBuffer();
        if (buffer[ISO7816.OFFSET_LC] != 1 || apdu.setIncomingAndReceive() != 1) {
            ISOException.throwIt(ISO7816.SW_WRONG_LENGTH);
        }
        byte amount = buffer[ISO7816.OFFSET_CDATA];
        if (amount <= 0 || amount > MOST_AT_ONCE) {
            ISOException.throwIt(SW_INVALID_AMOUNT);
        }
        return amount;
    }

    private void getBalance(APDU apdu) {
        short expected = apdu.setOutgoing();
        if (expected < 2) {
            ISOException.throwIt(ISO7816.SW_WRONG_LENGTH);
        }
        byte[] buffer = apdu.getBuffer();
        buffer[0] = (byte) (balance >> 8);
        buffer[1] = (byte) balance;
        apdu.setOutgoingLength((short) 2);
        apdu.sendBytes((short) 0, (short) 2);
    }
}
