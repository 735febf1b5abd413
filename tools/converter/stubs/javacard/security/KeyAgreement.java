package javacard.security;

/** An engine that agrees with another party on a secret. It is made by a call, and no class of an applet extends it. */
public abstract class KeyAgreement {
    public static final byte ALG_EC_SVDP_DH = 1;
    public static final byte ALG_EC_SVDP_DH_KDF = 1;
    public static final byte ALG_EC_SVDP_DHC = 2;
    public static final byte ALG_EC_SVDP_DHC_KDF = 2;
    public static final byte ALG_EC_SVDP_DH_PLAIN = 3;
    public static final byte ALG_EC_SVDP_DHC_PLAIN = 4;
    public static final byte ALG_EC_SVDP_DH_PLAIN_XY = 6;

    KeyAgreement() {
    }

    public static final KeyAgreement getInstance(byte algorithm, boolean externalAccess) {
        return null;
    }

    /** Takes the other party's public data, and hands out the secret. */
    public abstract short generateSecret(byte[] publicData, short publicOffset, short publicLength, byte[] secret, short secretOffset);

    public abstract byte getAlgorithm();

    public abstract void init(PrivateKey privKey);
}
