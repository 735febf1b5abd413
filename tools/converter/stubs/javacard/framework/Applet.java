package javacard.framework;

/** What an applet extends. It also has a method public static void install(byte[] bArray, short bOffset, byte bLength). */
public abstract class Applet {
    protected Applet() {
    }

    public void deselect() {
    }

    public Shareable getShareableInterfaceObject(AID clientAID, byte parameter) {
        return null;
    }

    public abstract void process(APDU apdu);

    protected final boolean reSelectingApplet() {
        return false;
    }

    protected final void register() {
    }

    protected final void register(byte[] bArray, short bOffset, byte bLength) {
    }

    public boolean select() {
        return true;
    }

    protected final boolean selectingApplet() {
        return false;
    }
}
