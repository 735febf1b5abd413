package javacard.security;

/** A key of DES as the card has it. */
public abstract class DESKeyObject extends KeyObject implements DESKey {
    DESKeyObject() {
    }
}
