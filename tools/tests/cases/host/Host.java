package host;

import ciphers.Ciphers;

/** Carries out steps. */
public class Host extends Ciphers {
    public static void install(byte[] array, short offset, byte length) {
        new Host().register();
    }
}
