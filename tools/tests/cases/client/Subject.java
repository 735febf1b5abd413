package client;

import library.Base;

/** Asks on a card. */
public class Subject extends Base {
    private final Client core = new Client();

    public static void install(byte[] bArray, short bOffset, byte bLength) {
        new Subject().register();
    }

    protected short answer(byte which, short a) {
        return core.run(which, a);
    }
}
