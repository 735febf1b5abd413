package javacard.framework;

/** An interface that extends it can be called from other packages. */
public interface Shareable {
}
