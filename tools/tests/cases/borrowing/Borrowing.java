package borrowing;

import engines.Engines;
import engines.Lender;
import javacard.framework.AID;
import javacard.framework.JCSystem;
import javacard.security.Checksum;
import javacard.security.MessageDigest;
import javacard.security.RandomData;

/** Carries out the same steps, and has the lender's engines and its array beside its own: slot 4, place 4. */
public class Borrowing extends Engines {
    private static final byte LENT = 4;

    private static byte[] lenderAID = {(byte) 0xF0, 0x6C, 0x65, 0x6E, 0x64, 0x69, 0x6E, 0x67, 0x01};

    private Lender lender;

    public static void install(byte[] array, short offset, byte length) {
        new Borrowing().register();
    }

    public boolean select() {
        AID aid = JCSystem.lookupAID(lenderAID, (short) 0, (byte) lenderAID.length);
        lender = (Lender) JCSystem.getAppletShareableInterfaceObject(aid, (byte) 0);
        return lender != null;
    }

    protected MessageDigest digestIn(byte slot) {
        return slot == LENT ? lender.digest() : super.digestIn(slot);
    }

    protected Checksum checksumIn(byte slot) {
        return slot == LENT ? lender.checksum() : super.checksumIn(slot);
    }

    protected RandomData randomIn(byte slot) {
        return slot == LENT ? lender.random() : super.randomIn(slot);
    }

    protected byte[] arrayIn(byte place) {
        return place == LENT ? lender.bytes() : super.arrayIn(place);
    }
}
