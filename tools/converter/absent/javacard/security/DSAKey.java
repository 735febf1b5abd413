package javacard.security;

public interface DSAKey {
    void setP(byte[] buffer, short offset, short length);

    short getP(byte[] buffer, short offset);

    void setQ(byte[] buffer, short offset, short length);

    short getQ(byte[] buffer, short offset);

    void setG(byte[] buffer, short offset, short length);

    short getG(byte[] buffer, short offset);
}
