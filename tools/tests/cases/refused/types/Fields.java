package refused.types;

class Fields {
    int number; //!* the field number has type int, which the card does not have
    static long time; //!* the field time has type long, which the card does not have
    char letter; //!* the field letter has type char, which the card does not have
    float[] rates; //!* the field rates has type float[], which the card does not have
    byte[][] rows; //!* the field rows has type byte[][], an array of arrays, which the card does not have
    short allowed;
    Object[] alsoAllowed;
}
