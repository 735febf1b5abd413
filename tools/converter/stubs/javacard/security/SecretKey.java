package javacard.security;

/** A key that its owners keep secret. */
public interface SecretKey extends Key {
    void clearKey();

    short getSize();

    byte getType();

    boolean isInitialized();
}
