package jcard.junit;

/** How far a test is that is repeated for each word write: after how many the power is cut, and whether another repetition comes. */
final class Sweep {
    private final boolean cutsRecoveries;
    private int writes;
    private int writesOfRecovery;
    private boolean isTorn;
    private boolean isCut;
    private boolean isRecoveryCut;
    private boolean isBegun;

    Sweep(boolean cutsRecoveries) {
        this.cutsRecoveries = cutsRecoveries;
    }

    /** Goes on to the next repetition, and says whether there is one. */
    boolean advances() {
        if (!isBegun) {
            isBegun = true;
        } else if (!isTorn || !isCut) {
            return false;
        } else if (isRecoveryCut) {
            writesOfRecovery++;
        } else {
            writes++;
            writesOfRecovery = 0;
        }
        isTorn = false;
        return true;
    }

    /** Notes what came of the repetition. */
    void told(boolean wasCut, boolean wasRecoveryCut) {
        isTorn = true;
        isCut = wasCut;
        isRecoveryCut = wasRecoveryCut;
    }

    boolean isTorn() {
        return isTorn;
    }

    boolean cutsRecoveries() {
        return cutsRecoveries;
    }

    int writes() {
        return writes;
    }

    int writesOfRecovery() {
        return writesOfRecovery;
    }

    @Override
    public String toString() {
        return "cut after " + writes + " word writes" + (cutsRecoveries ? ", its recovery after " + writesOfRecovery : "");
    }
}
