package guest;

import ciphers.Ciphers;
import ciphers.Lender;
import javacard.framework.AID;
import javacard.framework.JCSystem;
import javacard.security.Key;
import javacardx.crypto.Cipher;

/** Carries out the same steps, and has the host's key, cipher and array beside its own: slot 4, place 4. */
public class Guest extends Ciphers {
    private static final byte LENT = 4;

    private static byte[] hostAID = {(byte) 0xF0, 0x68, 0x6F, 0x73, 0x74, 0x01};

    private Lender host;

    public static void install(byte[] array, short offset, byte length) {
        new Guest().register();
    }

    public boolean select() {
        AID aid = JCSystem.lookupAID(hostAID, (short) 0, (byte) hostAID.length);
        host = (Lender) JCSystem.getAppletShareableInterfaceObject(aid, (byte) 0);
        return host != null;
    }

    protected Key keyIn(byte slot) {
        return slot == LENT ? host.key() : super.keyIn(slot);
    }

    protected Cipher cipherIn(byte slot) {
        return slot == LENT ? host.cipher() : super.cipherIn(slot);
    }

    protected byte[] arrayIn(byte place) {
        return place == LENT ? host.bytes() : super.arrayIn(place);
    }
}
