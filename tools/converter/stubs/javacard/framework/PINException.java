package javacard.framework;

/** A PIN is misused. */
public class PINException extends CardRuntimeException {
    public static final short ILLEGAL_VALUE = 1;

    public PINException(short reason) {
        super(reason);
    }

    public static void throwIt(short reason) {
    }
}
