package checker;

import javacard.framework.AID;
import javacard.framework.JCSystem;
import javacard.security.Key;
import javacard.security.Signature;
import signatures.Lender;
import signatures.Signatures;

/** Carries out the same steps, and has the signer's key, signature and array beside its own: slot 8, place 8. */
public class Checker extends Signatures {
    private static final byte LENT = 8;

    private static byte[] signerAID = {(byte) 0xF0, 0x73, 0x69, 0x67, 0x6E, 0x65, 0x72, 0x01};

    private Lender signer;

    public static void install(byte[] array, short offset, byte length) {
        new Checker().register();
    }

    public boolean select() {
        AID aid = JCSystem.lookupAID(signerAID, (short) 0, (byte) signerAID.length);
        signer = (Lender) JCSystem.getAppletShareableInterfaceObject(aid, (byte) 0);
        return signer != null;
    }

    protected Key keyIn(byte slot) {
        return slot == LENT ? signer.key() : super.keyIn(slot);
    }

    protected Signature signatureIn(byte slot) {
        return slot == LENT ? signer.signature() : super.signatureIn(slot);
    }

    protected byte[] arrayIn(byte place) {
        return place == LENT ? signer.bytes() : super.arrayIn(place);
    }
}
