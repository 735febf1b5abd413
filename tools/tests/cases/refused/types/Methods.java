package refused.types;

class Methods {
    void parameter(int number) {
        return; //! parameter: a parameter or the result has type int, which the card does not have
    }

    double result() {
        return 0; //! result: a parameter or the result has type double, which the card does not have
    }

    synchronized void waits() {
        return; //! waits: synchronized, which the card does not have
    }

    native void elsewhere(); //!* elsewhere: a native method, which the card does not have
}
