package javacard.security;

/** A key of AES as the card has it. */
public abstract class AESKeyObject extends KeyObject implements AESKey {
    AESKeyObject() {
    }
}
