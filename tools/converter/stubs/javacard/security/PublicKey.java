package javacard.security;

/** A key that its owner gives out, of a pair. */
public interface PublicKey extends Key {
    void clearKey();

    short getSize();

    byte getType();

    boolean isInitialized();
}
