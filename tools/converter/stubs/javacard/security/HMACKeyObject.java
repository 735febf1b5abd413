package javacard.security;

/** A key of HMAC as the card has it. */
public abstract class HMACKeyObject extends KeyObject implements HMACKey {
    HMACKeyObject() {
    }

    public abstract void setKey(byte[] keyData, short kOff, short kLen);
}
