package javacard.security;

/** A private key of RSA, as what the Chinese remainder theorem takes: both primes, both exponents, and the inverse of Q modulo P. */
public interface RSAPrivateCrtKey extends PrivateKey {
    void clearKey();

    short getDP1(byte[] buffer, short offset);

    short getDQ1(byte[] buffer, short offset);

    short getP(byte[] buffer, short offset);

    short getPQ(byte[] buffer, short offset);

    short getQ(byte[] buffer, short offset);

    short getSize();

    byte getType();

    boolean isInitialized();

    void setDP1(byte[] buffer, short offset, short length);

    void setDQ1(byte[] buffer, short offset, short length);

    void setP(byte[] buffer, short offset, short length);

    void setPQ(byte[] buffer, short offset, short length);

    void setQ(byte[] buffer, short offset, short length);
}
