package refused.code;

class Twice {
    static byte[] first;
    static byte[] second = first = new byte[2]; //! a static initialiser: a static field begins as a number, null, or an array of numbers
}
