package javacard.security;

/** A public key of RSA as the card has it. */
public abstract class RSAPublicKeyObject extends RSAKeyObject implements RSAPublicKey {
    RSAPublicKeyObject() {
    }
}
