package javacard.security;

/** A key as the card has it. An applet names the interfaces of keys, and none of these classes. */
public abstract class KeyObject implements Key {
    KeyObject() {
    }

    public abstract void clearKey();

    public abstract byte getKey(byte[] keyData, short kOff);

    public abstract short getSize();

    public abstract byte getType();

    public abstract boolean isInitialized();

    public abstract void setKey(byte[] keyData, short kOff);
}
