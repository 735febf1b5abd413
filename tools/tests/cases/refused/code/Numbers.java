package refused.code;

/** Ints that are more than intermediate values, and intermediate values whose high bits count. */
class Numbers {
    short a;
    short b;
    byte[] bytes = new byte[4];

    short variable() {
        int sum = a + 1; //! variable: the variable sum has type int, which the card does not have
        return (short) sum;
    }

    void longVariable() {
        long time = a; //! longVariable: the variable time has type long, which the card does not have
    }

    void charVariable() {
        char letter = 'a'; //! charVariable: the variable letter has type char, which the card does not have
    }

    short divided() {
        return (short) ((a + b) / 2); //! divided: a dividend may leave 16 bits; cast the intermediate value to short or byte
    }

    short divides() {
        return (short) (a / (b * 2)); //! divides: a divisor may leave 16 bits; cast the intermediate value to short or byte
    }

    boolean compared() {
        return a + b > 0; //! compared: a condition may leave 16 bits; cast the intermediate value to short or byte
    }

    boolean comparedWithAnother() {
        return a + 1 > b; //! comparedWithAnother: an operand of a comparison may leave 16 bits; cast the intermediate value to short or byte
    }

    short shifted() {
        return (short) ((a + b) >> 1); //! shifted: the value of a right shift may leave 16 bits; cast the intermediate value to short or byte
    }

    short masked() {
        return (short) (((a + b) & a) / 2); //! masked: a dividend may leave 16 bits; cast the intermediate value to short or byte
    }

    byte index() {
        return bytes[a + b]; //! index: an index may leave 16 bits; cast the intermediate value to short or byte
    }

    Object length() {
        return new byte[a * b]; //! length: the length of an array may leave 16 bits; cast the intermediate value to short or byte
    }

    short chosen() {
        switch (a * b) { //! chosen: the value of a switch may leave 16 bits; cast the intermediate value to short or byte
            case 1:
                return 2;
            default:
                return 3;
        }
    }

    short largeCase() {
        switch (a) {
            case 1:
                return 2;
            default:
                break;
        }
        switch ((short) (a + 1) + 0) { //! largeCase: the case 40000 is no short
            case 40000:
                return 2;
            default:
                return 3;
        }
    }

    boolean largeConstant() {
        return a < 100000; //! largeConstant: an operand of a comparison may leave 16 bits; cast the intermediate value to short or byte
    }

    short comparedAsOtherwise(short x) {
        if (x < 100) {
            return (short) ((x - 32767) / 2); //! comparedAsOtherwise: a dividend may leave 16 bits; cast the intermediate value to short or byte
        }
        return 0;
    }

    short changedBehindTheComparison(short x) {
        if (x > 0) {
            x = a;
            return (short) ((x - 32767) / 2); //! changedBehindTheComparison: a dividend may leave 16 bits; cast the intermediate value to short or byte
        }
        return 0;
    }

    short changedWithinTheComparison(short x) {
        if (x > ((x = a) & 7)) {
            return (short) ((x - 32767) / 2); //! changedWithinTheComparison: a dividend may leave 16 bits; cast the intermediate value to short or byte
        }
        return 0;
    }

    short ofLong() {
        return (short) (a + 5000000000L); //! ofLong: type long, which the card does not have
    }

    short ofDouble() {
        return (short) (a * 0.5); //! ofDouble: type double, which the card does not have
    }

    short ofChar() {
        return (short) (char) a; //! ofChar: type char, which the card does not have
    }
}
