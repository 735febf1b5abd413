package javacard.security;

/** A key of HMAC, which may have fewer bytes than it has room for. */
public interface HMACKey extends SecretKey {
    void clearKey();

    /** Answers how many bytes the key has. */
    byte getKey(byte[] keyData, short kOff);

    short getSize();

    byte getType();

    boolean isInitialized();

    void setKey(byte[] keyData, short kOff, short kLen);
}
