package javacard.framework;

/** Arrays of bytes, and shorts in them. */
public class Util {
    private Util() {
    }

    public static byte arrayCompare(byte[] src, short srcOff, byte[] dest, short destOff, short length) {
        return 0;
    }

    public static short arrayCopy(byte[] src, short srcOff, byte[] dest, short destOff, short length) {
        return 0;
    }

    public static short arrayCopyNonAtomic(byte[] src, short srcOff, byte[] dest, short destOff, short length) {
        return 0;
    }

    public static short arrayFill(byte[] bArray, short bOff, short bLen, byte bValue) {
        return 0;
    }

    public static short arrayFillNonAtomic(byte[] bArray, short bOff, short bLen, byte bValue) {
        return 0;
    }

    public static short getShort(byte[] bArray, short bOff) {
        return 0;
    }

    public static short makeShort(byte b1, byte b2) {
        return 0;
    }

    public static short setShort(byte[] bArray, short bOff, short sValue) {
        return 0;
    }
}
