package loyalty;

import javacard.framework.Shareable;

/** What the loyalty applet lets another one do. */
public interface Points extends Shareable {
    /** Adds points, and returns how many there are. */
    short add(short points);
}
