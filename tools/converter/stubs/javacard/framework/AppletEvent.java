package javacard.framework;

/** What an applet implements that is told when it is deleted. */
public interface AppletEvent {
    void uninstall();
}
