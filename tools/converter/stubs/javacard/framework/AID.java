package javacard.framework;

/** An application identifier, of 5 to 16 bytes. */
public final class AID {
    public AID(byte[] bArray, short offset, byte length) {
    }

    public boolean equals(Object anObject) {
        return false;
    }

    public boolean equals(byte[] bArray, short offset, byte length) {
        return false;
    }

    public boolean RIDEquals(AID otherAID) {
        return false;
    }

    /** Copies the bytes, and returns their number. */
    public byte getBytes(byte[] dest, short offset) {
        return 0;
    }

    public byte getPartialBytes(short aidOffset, byte[] dest, short oOffset, byte oLength) {
        return 0;
    }

    public boolean partialEquals(byte[] bArray, short offset, byte length) {
        return false;
    }
}
