package javacard.security;

/** A private key of RSA as the card has it, with what the Chinese remainder theorem takes. */
public abstract class RSAPrivateCrtKeyObject extends KeyObject implements RSAPrivateCrtKey {
    RSAPrivateCrtKeyObject() {
    }

    public abstract short getDP1(byte[] buffer, short offset);

    public abstract short getDQ1(byte[] buffer, short offset);

    public abstract short getP(byte[] buffer, short offset);

    public abstract short getPQ(byte[] buffer, short offset);

    public abstract short getQ(byte[] buffer, short offset);

    public abstract void setDP1(byte[] buffer, short offset, short length);

    public abstract void setDQ1(byte[] buffer, short offset, short length);

    public abstract void setP(byte[] buffer, short offset, short length);

    public abstract void setPQ(byte[] buffer, short offset, short length);

    public abstract void setQ(byte[] buffer, short offset, short length);
}
