package signer;

import signatures.Signatures;

/** Carries out steps. */
public class Signer extends Signatures {
    public static void install(byte[] array, short offset, byte length) {
        new Signer().register();
    }
}
