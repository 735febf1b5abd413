package javacard.security;

/** A private key on an elliptic curve as the card has it. */
public abstract class ECPrivateKeyObject extends ECKeyObject implements ECPrivateKey {
    ECPrivateKeyObject() {
    }

    public abstract short getS(byte[] buffer, short offset);

    public abstract void setS(byte[] buffer, short offset, short length);
}
