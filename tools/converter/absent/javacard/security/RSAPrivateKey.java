package javacard.security;

public interface RSAPrivateKey extends PrivateKey {
    void setModulus(byte[] buffer, short offset, short length);

    short getModulus(byte[] buffer, short offset);

    void setExponent(byte[] buffer, short offset, short length);

    short getExponent(byte[] buffer, short offset);
}
