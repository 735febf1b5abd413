package javacard.security;

/** A key of DES, or of triple DES with two or three keys. */
public interface DESKey extends SecretKey {
    void clearKey();

    /** Answers how many bytes the key has. */
    byte getKey(byte[] keyData, short kOff);

    short getSize();

    byte getType();

    boolean isInitialized();

    void setKey(byte[] keyData, short kOff);
}
