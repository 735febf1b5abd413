package javacard.security;

/** A public key of RSA. */
public interface RSAPublicKey extends PublicKey {
    void clearKey();

    short getExponent(byte[] buffer, short offset);

    short getModulus(byte[] buffer, short offset);

    short getSize();

    byte getType();

    boolean isInitialized();

    void setExponent(byte[] buffer, short offset, short length);

    void setModulus(byte[] buffer, short offset, short length);
}
