package library;

public interface Countable {
    short count();
}
