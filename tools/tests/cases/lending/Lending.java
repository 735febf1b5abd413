package lending;

import engines.Engines;

/** Carries out steps. */
public class Lending extends Engines {
    public static void install(byte[] array, short offset, byte length) {
        new Lending().register();
    }
}
