package javacard.framework;

/** The checked exceptions of the API; each has a reason. */
public class CardException extends Exception {
    public CardException(short reason) {
    }

    public short getReason() {
        return 0;
    }

    public void setReason(short reason) {
    }

    public static void throwIt(short reason) throws CardException {
    }
}
