package javacard.security;

/** A MessageDigest whose first hash value can be set. It is made by a call, and no class of an applet extends it. */
public abstract class InitializedMessageDigest extends MessageDigest {
    InitializedMessageDigest() {
    }

    /** The hash value of the first bytes of a message is given, and how many these are, which are whole blocks. */
    public abstract void setInitialDigest(byte[] initialDigestBuf, short initialDigestOffset, short initialDigestLength, byte[] digestedMsgLenBuf, short digestedMsgLenOffset, short digestedMsgLenLength);
}
