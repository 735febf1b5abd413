package javacard.security;

/** A private key of RSA, as its modulus and its exponent. */
public interface RSAPrivateKey extends PrivateKey {
    void clearKey();

    short getExponent(byte[] buffer, short offset);

    short getModulus(byte[] buffer, short offset);

    short getSize();

    byte getType();

    boolean isInitialized();

    void setExponent(byte[] buffer, short offset, short length);

    void setModulus(byte[] buffer, short offset, short length);
}
