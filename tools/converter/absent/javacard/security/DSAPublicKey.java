package javacard.security;

public interface DSAPublicKey extends PublicKey, DSAKey {
    void setY(byte[] buffer, short offset, short length);

    short getY(byte[] buffer, short offset);
}
