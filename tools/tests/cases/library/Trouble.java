package library;

public class Trouble extends RuntimeException {
    public final short reason;

    public Trouble(short reason) {
        this.reason = reason;
    }
}
