package javacard.framework;

/** Transactions, transient arrays, AIDs, and objects of other applets. */
public final class JCSystem {
    public static final byte NOT_A_TRANSIENT_OBJECT = 0;
    public static final byte CLEAR_ON_RESET = 1;
    public static final byte CLEAR_ON_DESELECT = 2;
    public static final byte MEMORY_TYPE_PERSISTENT = 0;
    public static final byte MEMORY_TYPE_TRANSIENT_RESET = 1;
    public static final byte MEMORY_TYPE_TRANSIENT_DESELECT = 2;

    private JCSystem() {
    }

    public static void abortTransaction() {
    }

    public static void beginTransaction() {
    }

    public static void commitTransaction() {
    }

    public static AID getAID() {
        return null;
    }

    public static Shareable getAppletShareableInterfaceObject(AID serverAID, byte parameter) {
        return null;
    }

    public static byte getAssignedChannel() {
        return 0;
    }

    public static short getAvailableMemory(byte memoryType) {
        return 0;
    }

    /** Puts the number of bytes, whose upper half comes first, into two elements. */
    public static void getAvailableMemory(short[] buffer, short offset, byte memoryType) {
    }

    public static short getMaxCommitCapacity() {
        return 0;
    }

    public static AID getPreviousContextAID() {
        return null;
    }

    public static byte getTransactionDepth() {
        return 0;
    }

    public static short getUnusedCommitCapacity() {
        return 0;
    }

    public static short getVersion() {
        return 0;
    }

    public static boolean isAppletActive(AID theApplet) {
        return false;
    }

    public static boolean isObjectDeletionSupported() {
        return false;
    }

    public static byte isTransient(Object theObj) {
        return 0;
    }

    public static AID lookupAID(byte[] buffer, short offset, byte length) {
        return null;
    }

    public static boolean[] makeTransientBooleanArray(short length, byte event) {
        return null;
    }

    public static byte[] makeTransientByteArray(short length, byte event) {
        return null;
    }

    public static Object[] makeTransientObjectArray(short length, byte event) {
        return null;
    }

    public static short[] makeTransientShortArray(short length, byte event) {
        return null;
    }

    public static void requestObjectDeletion() {
    }
}
