package engines;

import javacard.framework.AID;
import javacard.framework.APDU;
import javacard.framework.Applet;
import javacard.framework.ISO7816;
import javacard.framework.ISOException;
import javacard.framework.JCSystem;
import javacard.framework.Shareable;
import javacard.framework.SystemException;
import javacard.framework.TransactionException;
import javacard.framework.Util;
import javacard.security.Checksum;
import javacard.security.CryptoException;
import javacard.security.InitializedMessageDigest;
import javacard.security.MessageDigest;
import javacard.security.RandomData;

/**
 * Carries out the steps that the data of a command are. A step is a byte that says which, and its operands: engines by their slots, arrays by
 * their places with an offset, and a length, each of two bytes. What the steps put out is the answer. An exception ends the command: the status
 * word says which, and its reason. Applets of two packages are below it.
 */
public abstract class Engines extends Applet implements Lender {
    /** The first byte of the status words of exceptions; the second is the reason, where there is one. */
    private static final short CRYPTO = (short) 0xC000;
    private static final short SYSTEM = (short) 0xD000;
    private static final short TRANSACTION = (short) 0xDA00;
    private static final short NULL_POINTER = (short) 0xEA00;
    private static final short SECURITY = (short) 0xEB00;
    private static final short INDEX = (short) 0xE600;
    private static final short CLASS_CAST = (short) 0xEC00;

    private static final short DONE = (short) 0x9000;

    private static final short SIZE = 320;
    private static final short SLOTS = 4;
    private static final byte AT = 0;
    private static final byte LENGTH = 1;

    private final byte[] kept = new byte[SIZE];
    private final byte[] passing = JCSystem.makeTransientByteArray(SIZE, JCSystem.CLEAR_ON_RESET);
    private final byte[] steps = JCSystem.makeTransientByteArray((short) 256, JCSystem.CLEAR_ON_DESELECT);
    private final byte[] response = JCSystem.makeTransientByteArray((short) 256, JCSystem.CLEAR_ON_DESELECT);
    private final short[] cursor = JCSystem.makeTransientShortArray((short) 2, JCSystem.CLEAR_ON_DESELECT);
    private final MessageDigest[] digests = new MessageDigest[SLOTS];
    private final Checksum[] checksums = new Checksum[SLOTS];
    private final RandomData[] randoms = new RandomData[SLOTS];

    public Shareable getShareableInterfaceObject(AID client, byte parameter) {
        return this;
    }

    public MessageDigest digest() {
        return digests[0];
    }

    public Checksum checksum() {
        return checksums[0];
    }

    public RandomData random() {
        return randoms[0];
    }

    public byte[] bytes() {
        return kept;
    }

    public void process(APDU apdu) {
        if (selectingApplet()) {
            return;
        }
        byte[] buffer = apdu.getBuffer();
        short length = apdu.setIncomingAndReceive();
        Util.arrayCopy(buffer, ISO7816.OFFSET_CDATA, steps, (short) 0, length);
        cursor[AT] = 0;
        cursor[LENGTH] = 0;
        while (cursor[AT] < length) {
            short status = attempt();
            if (status != DONE) {
                ISOException.throwIt(status);
            }
        }
        apdu.setOutgoing();
        apdu.setOutgoingLength(cursor[LENGTH]);
        apdu.sendBytesLong(response, (short) 0, cursor[LENGTH]);
    }

    /** Carries out a step: the status word of its exception, or 9000. */
    private short attempt() {
        try {
            step(next());
            return DONE;
        } catch (CryptoException exception) {
            return (short) (CRYPTO + exception.getReason());
        } catch (SystemException exception) {
            return (short) (SYSTEM + exception.getReason());
        } catch (TransactionException exception) {
            return (short) (TRANSACTION + exception.getReason());
        } catch (NullPointerException exception) {
            return NULL_POINTER;
        } catch (SecurityException exception) {
            return SECURITY;
        } catch (IndexOutOfBoundsException exception) {
            return INDEX;
        } catch (ClassCastException exception) {
            return CLASS_CAST;
        }
    }

    private void step(byte which) {
        switch ((byte) (which & 0xF0)) {
            case 0x00:
                frame(which);
                break;
            case 0x10:
                make(which);
                break;
            case 0x20:
                askDigest(which);
                break;
            case 0x30:
                askChecksum(which);
                break;
            case 0x40:
                askRandom(which);
                break;
            case 0x50:
                handle(which);
                break;
            default:
                ISOException.throwIt(ISO7816.SW_INS_NOT_SUPPORTED);
        }
    }

    /** Transactions, room, and exceptions. */
    private void frame(byte which) {
        switch (which) {
            case 0x00:
                JCSystem.beginTransaction();
                break;
            case 0x01:
                JCSystem.commitTransaction();
                break;
            case 0x02:
                JCSystem.abortTransaction();
                break;
            case 0x03:
                answer(JCSystem.getUnusedCommitCapacity());
                break;
            case 0x04:
                answer(JCSystem.getAvailableMemory(JCSystem.MEMORY_TYPE_TRANSIENT_RESET));
                break;
            case 0x05:
                answer(JCSystem.getAvailableMemory(JCSystem.MEMORY_TYPE_PERSISTENT));
                break;
            case 0x06: // the next step, and how it ends
                answer(attempt());
                break;
            case 0x07:
                CryptoException.throwIt(two());
                break;
            case 0x08:
                answer(new CryptoException(two()).getReason());
                break;
            default:
                throw new CryptoException(two());
        }
    }

    /** Engines that are made, forgotten, and looked at. */
    private void make(byte which) {
        switch (which) {
            case 0x10:
                digests[next()] = MessageDigest.getInstance(next(), next() != 0);
                break;
            case 0x11:
                digests[next()] = MessageDigest.getInitializedMessageDigestInstance(next(), next() != 0);
                break;
            case 0x12:
                checksums[next()] = Checksum.getInstance(next(), next() != 0);
                break;
            case 0x13:
                randoms[next()] = RandomData.getInstance(next());
                break;
            case 0x14:
                answer(makeMost(next(), next()));
                break;
            case 0x15:
                digests[next()] = null;
                break;
            case 0x16:
                answer((short) (digests[next()] == null ? 0 : 1));
                break;
            case 0x18:
                answer((short) (checksums[next()] == null ? 0 : 1));
                break;
            case 0x19:
                answer((short) (randoms[next()] == null ? 0 : 1));
                break;
            case 0x1A: // takes transient cells
                JCSystem.makeTransientByteArray(two(), JCSystem.CLEAR_ON_RESET);
                break;
            default: // takes persistent words
                answer((short) new short[two()].length);
        }
    }

    /** How many engines of a kind fit. */
    private short makeMost(byte kind, byte algorithm) {
        short made = 0;
        try {
            while (true) {
                makeOne(kind, algorithm);
                made++;
            }
        } catch (SystemException exception) {
            answer((short) (SYSTEM + exception.getReason()));
        } catch (TransactionException exception) {
            answer((short) (TRANSACTION + exception.getReason()));
        }
        return made;
    }

    private void makeOne(byte kind, byte algorithm) {
        switch (kind) {
            case 0:
                MessageDigest.getInstance(algorithm, false);
                break;
            case 2:
                Checksum.getInstance(algorithm, false);
                break;
            default:
                RandomData.getInstance(algorithm);
        }
    }

    private void askDigest(byte which) {
        MessageDigest engine = digestIn(next());
        switch (which) {
            case 0x20:
                answer(engine.getAlgorithm());
                break;
            case 0x21:
                answer(engine.getLength());
                break;
            case 0x22:
                engine.reset();
                break;
            case 0x23:
                engine.update(place(), two(), two());
                break;
            case 0x24:
                answer(engine.doFinal(place(), two(), two(), place(), two()));
                break;
            default:
                beginAfter(engine, place(), two(), two(), place(), two(), two());
        }
    }

    /** The message begins after bytes whose hash value is known; all operands are read before the engine is looked at. */
    private void beginAfter(MessageDigest engine, byte[] hash, short hashOffset, short hashLength, byte[] count, short countOffset, short countLength) {
        ((InitializedMessageDigest) engine).setInitialDigest(hash, hashOffset, hashLength, count, countOffset, countLength);
    }

    private void askChecksum(byte which) {
        Checksum engine = checksumIn(next());
        switch (which) {
            case 0x30:
                answer(engine.getAlgorithm());
                break;
            case 0x31:
                engine.init(place(), two(), two());
                break;
            case 0x33:
                engine.update(place(), two(), two());
                break;
            default:
                answer(engine.doFinal(place(), two(), two(), place(), two()));
        }
    }

    private void askRandom(byte which) {
        RandomData engine = randomIn(next());
        switch (which) {
            case 0x40:
                answer(engine.getAlgorithm());
                break;
            case 0x41:
                engine.generateData(place(), two(), two());
                break;
            case 0x42:
                answer(engine.nextBytes(place(), two(), two()));
                break;
            default:
                engine.setSeed(place(), two(), two());
        }
    }

    /** Bytes of arrays. */
    private void handle(byte which) {
        byte[] array = place();
        short offset = two();
        short length = two();
        switch (which) {
            case 0x50:
                cursor[LENGTH] = Util.arrayCopy(array, offset, response, cursor[LENGTH], length);
                break;
            case 0x51:
                Util.arrayCopy(steps, cursor[AT], array, offset, length);
                cursor[AT] += length;
                break;
            default:
                Util.arrayFill(array, offset, length, next());
        }
    }

    protected MessageDigest digestIn(byte slot) {
        return digests[slot];
    }

    protected Checksum checksumIn(byte slot) {
        return checksums[slot];
    }

    protected RandomData randomIn(byte slot) {
        return randoms[slot];
    }

    protected byte[] arrayIn(byte place) {
        switch (place) {
            case 0:
                return APDU.getCurrentAPDUBuffer();
            case 1:
                return kept;
            case 2:
                return passing;
            default:
                return null;
        }
    }

    private byte[] place() {
        return arrayIn(next());
    }

    private byte next() {
        return steps[cursor[AT]++];
    }

    private short two() {
        return Util.makeShort(next(), next());
    }

    private void answer(short value) {
        cursor[LENGTH] = Util.setShort(response, cursor[LENGTH], value);
    }
}
