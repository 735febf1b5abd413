package javacard.security;

/** A key that its owner keeps secret, of a pair. */
public interface PrivateKey extends Key {
    void clearKey();

    short getSize();

    byte getType();

    boolean isInitialized();
}
