package vault;

/** A box, which has what an applet may want of another one. Every package may read and write its static fields. */
public class Box implements Door {
    public static Box box;
    public static Object thing;
    public static byte[] bytes;
    public static Door door;
    public static Keys keys;
    public static Alarm alarm;

    public short number;

    public short open() {
        return number;
    }

    public short knock() {
        return number;
    }
}
