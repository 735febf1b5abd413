package javacard.framework;

/** A PIN whose owner can change it. */
public class OwnerPIN implements PIN {
    public OwnerPIN(byte tryLimit, byte maxPINSize) {
    }

    /** Takes a try before it compares; no abort gives the try back. */
    public boolean check(byte[] pin, short offset, byte length) {
        return false;
    }

    public byte getTriesRemaining() {
        return 0;
    }

    protected boolean getValidatedFlag() {
        return false;
    }

    public boolean isValidated() {
        return false;
    }

    public void reset() {
    }

    public void resetAndUnblock() {
    }

    protected void setValidatedFlag(boolean value) {
    }

    public void update(byte[] pin, short offset, byte length) {
    }
}
