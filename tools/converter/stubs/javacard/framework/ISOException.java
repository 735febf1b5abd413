package javacard.framework;

/** Ends a command; the reason is the status word of its response. */
public class ISOException extends CardRuntimeException {
    public ISOException(short reason) {
        super(reason);
    }

    public static void throwIt(short reason) {
    }
}
