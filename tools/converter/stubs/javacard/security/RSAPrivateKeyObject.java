package javacard.security;

/** A private key of RSA as the card has it. */
public abstract class RSAPrivateKeyObject extends RSAKeyObject implements RSAPrivateKey {
    RSAPrivateKeyObject() {
    }
}
