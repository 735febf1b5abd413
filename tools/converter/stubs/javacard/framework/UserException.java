package javacard.framework;

/** A checked exception for applets. */
public class UserException extends CardException {
    public UserException() {
        super((short) 0);
    }

    public UserException(short reason) {
        super(reason);
    }

    public static void throwIt(short reason) throws UserException {
    }
}
