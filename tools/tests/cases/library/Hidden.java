package library;

/** A class that other packages cannot name, though they inherit from it. */
abstract class Hidden {
    public short hidden() {
        return 1000;
    }

    protected short reached() {
        return 2000;
    }
}
