package vault;

/** An exception of an applet's own. */
public class Alarm extends RuntimeException {
}
