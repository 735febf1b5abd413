package javacardx.apdu;

/** What an applet implements that takes commands of extended length. */
public interface ExtendedLength {
}
