package javacard.security;

/** An engine that makes checksums. It is made by a call, and no class of an applet extends it. */
public abstract class Checksum {
    public static final byte ALG_ISO3309_CRC16 = 1;
    public static final byte ALG_ISO3309_CRC32 = 2;

    Checksum() {
    }

    public static final Checksum getInstance(byte algorithm, boolean externalAccess) {
        return null;
    }

    /** Takes the last bytes, hands out the checksum, and begins anew. */
    public abstract short doFinal(byte[] inBuff, short inOffset, short inLength, byte[] outBuff, short outOffset);

    public abstract byte getAlgorithm();

    /** Begins anew, with a value in the place of the usual one. */
    public abstract void init(byte[] bArray, short bOff, short bLen);

    public abstract void update(byte[] inBuff, short inOffset, short inLength);
}
