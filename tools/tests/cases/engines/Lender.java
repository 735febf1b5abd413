package engines;

import javacard.framework.Shareable;
import javacard.security.Checksum;
import javacard.security.MessageDigest;
import javacard.security.RandomData;

/** Hands out what belongs to the context of its applet. */
public interface Lender extends Shareable {
    MessageDigest digest();

    Checksum checksum();

    RandomData random();

    byte[] bytes();
}
