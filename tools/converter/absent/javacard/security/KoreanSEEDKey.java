package javacard.security;

public interface KoreanSEEDKey extends SecretKey {
    void setKey(byte[] keyData, short kOff);

    byte getKey(byte[] keyData, short kOff);
}
