import java.nio.ByteBuffer;
import java.security.GeneralSecurityException;
import java.util.Arrays;
import javax.crypto.Cipher;
import javax.crypto.spec.IvParameterSpec;
import javax.crypto.spec.SecretKeySpec;
import javax.smartcardio.CommandAPDU;

/** The terminal's side of the ticket: a session of a gate that has the card's key, from the challenges of both. */
public final class Gate {
    public static final int ADD = 0x10;
    public static final int RIDE = 0x20;

    private static final int BLOCK = 16;
    private static final int STATE = 6;
    private static final byte PROOF_OF_TERMINAL = 1;
    private static final byte PROOF_OF_CARD = 2;
    private static final byte KEY_OF_SESSION = 3;

    private final byte[] ofTerminal;
    private final byte[] proof;
    private final byte[] proofOfCard;
    private final byte[] key;

    public Gate(byte[] cardKey, byte[] ofCard, byte[] ofTerminal) throws GeneralSecurityException {
        this.ofTerminal = ofTerminal;
        proof = mac(cardKey, new byte[] {PROOF_OF_TERMINAL}, ofCard, ofTerminal);
        proofOfCard = mac(cardKey, new byte[] {PROOF_OF_CARD}, ofCard, ofTerminal);
        key = mac(cardKey, new byte[] {KEY_OF_SESSION}, ofCard, ofTerminal);
    }

    /** MUTUAL AUTHENTICATE. */
    public CommandAPDU authentication() {
        return new CommandAPDU(0x00, 0x82, 0, 0, joined(ofTerminal, proof), BLOCK);
    }

    /** Whether the card that answers so has the key. */
    public boolean isProof(byte[] answer) {
        return Arrays.equals(answer, proofOfCard);
    }

    /** ADD or RIDE after this number of changes. */
    public CommandAPDU command(int instruction, int value, int changes) throws GeneralSecurityException {
        byte[] shown = {(byte) 0x80, (byte) instruction, 0, 0, 2 + BLOCK, (byte) (value >> 8), (byte) value};
        byte[] mac = mac(key, new byte[] {(byte) (changes >> 8), (byte) changes}, shown);
        return new CommandAPDU(joined(shown, mac));
    }

    /** The trips, the station and the number of changes in an answer to a change, which the card has to have made. */
    public String state(byte[] answer) throws GeneralSecurityException {
        byte[] state = Arrays.copyOf(answer, STATE);
        if (!Arrays.equals(answer, joined(state, mac(key, state)))) {
            throw new GeneralSecurityException("the MAC of the answer is wrong");
        }
        return told(state);
    }

    /** What an answer to STATE says. */
    public static String told(byte[] state) {
        ByteBuffer shorts = ByteBuffer.wrap(state);
        return String.format("%d trips, last from %d, after %d changes", shorts.getShort(), shorts.getShort(), shorts.getShort());
    }

    /** The code of NIST SP 800-38B (CMAC) with AES, of parts in a row. */
    private static byte[] mac(byte[] key, byte[]... parts) throws GeneralSecurityException {
        Cipher cipher = Cipher.getInstance("AES/CBC/NoPadding");
        cipher.init(Cipher.ENCRYPT_MODE, new SecretKeySpec(key, "AES"), new IvParameterSpec(new byte[BLOCK]));
        byte[] message = joined(parts);
        int blocks = Math.max(1, (message.length + BLOCK - 1) / BLOCK);
        byte[] padded = Arrays.copyOf(message, blocks * BLOCK);
        byte[] last = doubled(cipher.doFinal(new byte[BLOCK]));
        if (message.length < padded.length) {
            padded[message.length] = (byte) 0x80;
            last = doubled(last);
        }
        for (int at = 0; at < BLOCK; at++) {
            padded[padded.length - BLOCK + at] ^= last[at];
        }
        byte[] chained = cipher.doFinal(padded);
        return Arrays.copyOfRange(chained, chained.length - BLOCK, chained.length);
    }

    /** Twice a block, as an element of the field of 2^128 elements. */
    private static byte[] doubled(byte[] block) {
        byte[] twice = new byte[BLOCK];
        for (int at = 0; at < BLOCK; at++) {
            int next = at + 1 < BLOCK ? block[at + 1] & 0xFF : 0;
            twice[at] = (byte) (block[at] << 1 | next >> 7);
        }
        twice[BLOCK - 1] ^= block[0] < 0 ? (byte) 0x87 : 0;
        return twice;
    }

    private static byte[] joined(byte[]... parts) {
        ByteBuffer all = ByteBuffer.allocate(Arrays.stream(parts).mapToInt(part -> part.length).sum());
        for (byte[] part : parts) {
            all.put(part);
        }
        return all.array();
    }
}
