package javacard.security;

/** An engine that gives bytes. On this card they are a function of what was asked of it since the last reset. */
public abstract class RandomData {
    public static final byte ALG_PSEUDO_RANDOM = 1;
    public static final byte ALG_SECURE_RANDOM = 2;
    public static final byte ALG_TRNG = 3;
    public static final byte ALG_PRESEEDED_DRBG = 4;
    public static final byte ALG_FAST = 5;
    public static final byte ALG_KEYGENERATION = 6;

    RandomData() {
    }

    public static final RandomData getInstance(byte algorithm) {
        return null;
    }

    public abstract void generateData(byte[] buffer, short offset, short length);

    public abstract byte getAlgorithm();

    public abstract short nextBytes(byte[] buffer, short offset, short length);

    public abstract void setSeed(byte[] buffer, short offset, short length);
}
