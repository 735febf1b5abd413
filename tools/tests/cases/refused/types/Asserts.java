package refused.types;

class Asserts { //!* assert, which the card does not have //! a static initialiser: a static field begins as a number, null, or an array of numbers
    void positive(short x) {
        assert x > 0; //! positive: class java.lang.AssertionError is neither on the card nor in an export file
    }
}
