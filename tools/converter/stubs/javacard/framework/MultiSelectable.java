package javacard.framework;

/** What an applet implements that may be selected on several channels at once. */
public interface MultiSelectable {
    boolean select(boolean appInstAlreadyActive);

    void deselect(boolean appInstStillActive);
}
