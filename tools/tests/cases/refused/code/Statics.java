package refused.code;

class Statics {
    static short first = 5;
    static byte[] bytes = {1, 2, 3};
    static Object object = new Statics(); //! a static initialiser: a static field begins as a number, null, or an array of numbers
}
