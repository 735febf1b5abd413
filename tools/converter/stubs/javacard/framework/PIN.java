package javacard.framework;

/** A secret that is compared with what a user tells. */
public interface PIN {
    boolean check(byte[] pin, short offset, byte length);

    byte getTriesRemaining();

    boolean isValidated();

    void reset();
}
