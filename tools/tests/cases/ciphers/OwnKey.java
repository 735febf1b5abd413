package ciphers;

import javacard.security.AESKey;

/** A key that the platform has not made. */
public class OwnKey implements AESKey {
    public void clearKey() {
    }

    public short getSize() {
        return 128;
    }

    public byte getType() {
        return 15;
    }

    public boolean isInitialized() {
        return true;
    }

    public byte getKey(byte[] array, short offset) {
        return 0;
    }

    public void setKey(byte[] array, short offset) {
    }
}
