package library;

/** A class for other packages, with members of each kind. */
public abstract class Account extends Hidden implements Countable {
    public static final short LIMIT = 500;
    public static short opened;
    private static short unseen = 9;
    public static byte rate = 2;

    protected short total;
    protected Object owner;
    private short secret = 40;

    protected Account(short first) {
        total = first;
        opened++;
    }

    public static short interest(short amount) {
        return (short) (amount / 10 + rate + unseen);
    }

    public short add(short amount) {
        total += bounded(amount);
        return total;
    }

    protected abstract short bounded(short amount);

    short ofThePackage() {
        return secret;
    }

    public short all() {
        return (short) (total + ofThePackage() + hidden());
    }
}
