package ciphers;

import javacard.framework.Shareable;
import javacard.security.Key;
import javacardx.crypto.Cipher;

/** Hands out what belongs to the context of its applet. */
public interface Lender extends Shareable {
    Key key();

    Cipher cipher();

    byte[] bytes();
}
