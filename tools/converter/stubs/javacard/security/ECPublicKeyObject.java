package javacard.security;

/** A public key on an elliptic curve as the card has it. */
public abstract class ECPublicKeyObject extends ECKeyObject implements ECPublicKey {
    ECPublicKeyObject() {
    }

    public abstract short getW(byte[] buffer, short offset);

    public abstract void setW(byte[] buffer, short offset, short length);
}
