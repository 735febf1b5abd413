package javacard.security;

public interface AESKey extends SecretKey {
    void setKey(byte[] keyData, short kOff);

    byte getKey(byte[] keyData, short kOff);
}
