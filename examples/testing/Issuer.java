import java.nio.ByteBuffer;
import java.security.GeneralSecurityException;
import java.util.Arrays;
import javax.crypto.Cipher;
import javax.crypto.spec.IvParameterSpec;
import javax.crypto.spec.SecretKeySpec;
import javax.smartcardio.CommandAPDU;

/** The issuer's side of the payment card: what it makes of the card's answer to GENERATE AC. */
public final class Issuer {
    public static final int ARQC = 0x80;
    public static final int TC = 0x40;
    public static final int AAC = 0x00;
    public static final String APPROVED = "00"; // response codes
    public static final String DECLINED = "05";

    private static final int BLOCK = 8;

    public final int kind;
    public final int atc;
    public final int offline;
    private final byte[] key;
    private final byte[] cryptogram = new byte[BLOCK];

    /** An exception where the cryptogram in the answer is not that of the data. */
    public Issuer(byte[] masterKey, byte[] data, byte[] answer) throws GeneralSecurityException {
        ByteBuffer parts = ByteBuffer.wrap(answer);
        int layout = parts.getShort();
        kind = parts.get() & 0xFF;
        atc = parts.getShort();
        parts.get(cryptogram);
        byte results = parts.get();
        offline = parts.get();
        byte[] counter = {(byte) (atc >> 8), (byte) atc};
        byte[] left = Arrays.copyOf(counter, BLOCK);
        left[2] = (byte) 0xF0;
        byte[] right = Arrays.copyOf(counter, BLOCK);
        right[2] = 0x0F;
        key = tripleDes(masterKey, joined(left, right));
        byte[] wanted = mac(key, joined(data, counter, new byte[] {results, (byte) offline}));
        if (layout != (short) 0x800D || (results & 0xFE) != kind || !Arrays.equals(wanted, cryptogram)) {
            throw new GeneralSecurityException("the cryptogram is wrong");
        }
    }

    /** EXTERNAL AUTHENTICATE with the issuer's cryptogram for a response code. */
    public CommandAPDU authentication(String code) throws GeneralSecurityException {
        byte[] changed = cryptogram.clone();
        changed[0] ^= (byte) code.charAt(0);
        changed[1] ^= (byte) code.charAt(1);
        byte[] answer = joined(tripleDes(key, changed), new byte[] {(byte) code.charAt(0), (byte) code.charAt(1)});
        return new CommandAPDU(0x00, 0x82, 0, 0, answer);
    }

    /** The MAC of ISO 9797-1 by algorithm 3 and padding method 2: DES with the key's first part, triple DES for the last block. */
    private static byte[] mac(byte[] key, byte[] message) throws GeneralSecurityException {
        byte[] padded = Arrays.copyOf(message, message.length / BLOCK * BLOCK + BLOCK);
        padded[message.length] = (byte) 0x80;
        Cipher des = Cipher.getInstance("DES/CBC/NoPadding");
        des.init(Cipher.ENCRYPT_MODE, new SecretKeySpec(key, 0, BLOCK, "DES"), new IvParameterSpec(new byte[BLOCK]));
        int last = padded.length - BLOCK;
        byte[] chained = des.doFinal(padded, 0, last);
        for (int at = 0; at < BLOCK; at++) {
            padded[last + at] ^= chained[last - BLOCK + at];
        }
        return tripleDes(key, Arrays.copyOfRange(padded, last, padded.length));
    }

    /** Each block by itself, by a key of two parts. */
    private static byte[] tripleDes(byte[] key, byte[] message) throws GeneralSecurityException {
        Cipher cipher = Cipher.getInstance("DESede/ECB/NoPadding");
        cipher.init(Cipher.ENCRYPT_MODE, new SecretKeySpec(joined(key, Arrays.copyOf(key, BLOCK)), "DESede"));
        return cipher.doFinal(message);
    }

    private static byte[] joined(byte[]... parts) {
        ByteBuffer all = ByteBuffer.allocate(Arrays.stream(parts).mapToInt(part -> part.length).sum());
        for (byte[] part : parts) {
            all.put(part);
        }
        return all.array();
    }
}
