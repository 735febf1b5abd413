package javacard.security;

/** A public and a private key. */
public final class KeyPair {
    public static final byte ALG_RSA = 1;
    public static final byte ALG_RSA_CRT = 2;
    public static final byte ALG_EC_FP = 5;

    public KeyPair(byte algorithm, short keyLength) {
    }

    public KeyPair(PublicKey publicKey, PrivateKey privateKey) {
    }

    public void genKeyPair() {
    }

    public PrivateKey getPrivate() {
        return null;
    }

    public PublicKey getPublic() {
        return null;
    }
}
