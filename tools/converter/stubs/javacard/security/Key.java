package javacard.security;

/** A key. KeyBuilder makes keys. */
public interface Key {
    void clearKey();

    short getSize();

    byte getType();

    boolean isInitialized();
}
