package signatures;

import javacard.framework.Shareable;
import javacard.security.Key;
import javacard.security.Signature;

/** Hands out what belongs to the context of its applet. */
public interface Lender extends Shareable {
    Key key();

    Signature signature();

    byte[] bytes();
}
