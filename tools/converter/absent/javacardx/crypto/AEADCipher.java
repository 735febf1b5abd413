package javacardx.crypto;

import javacard.security.Key;

public abstract class AEADCipher extends Cipher {
    public static final byte ALG_AES_GCM = -13;
    public static final byte ALG_AES_CCM = -12;

    protected AEADCipher() {
    }

    public abstract void init(Key theKey, byte theMode, byte[] nonceBuf, short nonceOff, short nonceLen, short adataLen, short messageLen, short tagSize);

    public abstract void updateAAD(byte[] aadBuf, short aadOff, short aadLen);

    public abstract short retrieveTag(byte[] tagBuf, short tagOff, short tagLen);

    public abstract boolean verifyTag(byte[] receivedTagBuf, short receivedTagOff, short receivedTagLen, short requiredTagLen);
}
