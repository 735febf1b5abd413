package vault;

import javacard.framework.Shareable;

/** An interface that is shareable. */
public interface Keys extends Shareable {
    /** Answers a number. */
    short turn();

    /** Answers an element of an array that is cleared at a deselection. */
    byte count();
}
