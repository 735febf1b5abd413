package javacard.security;

/** A key of RSA as the card has it, with a modulus and an exponent. */
public abstract class RSAKeyObject extends KeyObject {
    RSAKeyObject() {
    }

    public abstract short getExponent(byte[] buffer, short offset);

    public abstract short getModulus(byte[] buffer, short offset);

    public abstract void setExponent(byte[] buffer, short offset, short length);

    public abstract void setModulus(byte[] buffer, short offset, short length);
}
