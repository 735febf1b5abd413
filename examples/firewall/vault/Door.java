package vault;

/** An interface that is not shareable. */
public interface Door {
    short knock();
}
