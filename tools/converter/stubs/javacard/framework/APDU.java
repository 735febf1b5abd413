package javacard.framework;

/** A command, and its response. */
public final class APDU {
    public static final byte STATE_INITIAL = 0;
    public static final byte STATE_PARTIAL_INCOMING = 1;
    public static final byte STATE_FULL_INCOMING = 2;
    public static final byte STATE_OUTGOING = 3;
    public static final byte STATE_OUTGOING_LENGTH_KNOWN = 4;
    public static final byte STATE_PARTIAL_OUTGOING = 5;
    public static final byte STATE_FULL_OUTGOING = 6;
    public static final byte STATE_ERROR_NO_T0_GETRESPONSE = -1;
    public static final byte STATE_ERROR_T1_IFD_ABORT = -2;
    public static final byte STATE_ERROR_IO = -3;
    public static final byte STATE_ERROR_NO_T0_REISSUE = -4;
    public static final byte PROTOCOL_T0 = 0;
    public static final byte PROTOCOL_T1 = 1;
    public static final byte PROTOCOL_TYPE_MASK = 15;
    public static final byte PROTOCOL_MEDIA_MASK = -16;
    public static final byte PROTOCOL_MEDIA_DEFAULT = 0;
    public static final byte PROTOCOL_MEDIA_CONTACTLESS_TYPE_A = -128;
    public static final byte PROTOCOL_MEDIA_CONTACTLESS_TYPE_B = -112;
    public static final byte PROTOCOL_MEDIA_USB = -96;

    private APDU() {
    }

    public byte[] getBuffer() {
        return null;
    }

    public static byte getCLAChannel() {
        return 0;
    }

    public static APDU getCurrentAPDU() {
        return null;
    }

    public static byte[] getCurrentAPDUBuffer() {
        return null;
    }

    public byte getCurrentState() {
        return 0;
    }

    public static short getInBlockSize() {
        return 0;
    }

    public short getIncomingLength() {
        return 0;
    }

    public byte getNAD() {
        return 0;
    }

    public short getOffsetCdata() {
        return 0;
    }

    public static short getOutBlockSize() {
        return 0;
    }

    public static byte getProtocol() {
        return 0;
    }

    public boolean isCommandChainingCLA() {
        return false;
    }

    public boolean isISOInterindustryCLA() {
        return false;
    }

    public boolean isSecureMessagingCLA() {
        return false;
    }

    public boolean isValidCLA() {
        return false;
    }

    public short receiveBytes(short bOff) {
        return 0;
    }

    public void sendBytes(short bOff, short len) {
    }

    public void sendBytesLong(byte[] outData, short bOff, short len) {
    }

    public short setIncomingAndReceive() {
        return 0;
    }

    public short setOutgoing() {
        return 0;
    }

    public void setOutgoingAndSend(short bOff, short len) {
    }

    public void setOutgoingLength(short len) {
    }

    public short setOutgoingNoChaining() {
        return 0;
    }

    public static void waitExtension() {
    }
}
