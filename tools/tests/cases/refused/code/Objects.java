package refused.code;

/** Classes and methods that are not there, and what needs them. */
class Objects {
    Object thing;

    void string() {
        thing = "text"; //! string: a string, which the card does not have
    }

    void classLiteral() {
        thing = Objects.class; //! classLiteral: a class literal, which the card does not have
    }

    void lambda() {
        thing = (Runnable) () -> { }; //! lambda: a lambda, a joined string or a pattern (invokedynamic), which the card does not have
    }

    void locked() {
        synchronized (this) { //! locked: synchronized, which the card does not have
            thing = null;
        }
    }

    void rows() {
        thing = new byte[2][]; //! rows: type byte[][], an array of arrays, which the card does not have
    }

    void rowsOfBoth() {
        thing = new byte[2][3]; //! rowsOfBoth: an array of arrays, which the card does not have
    }

    void ints() {
        thing = new int[2]; //! ints: type int[], which the card does not have
    }

    void castToRows() {
        thing = (byte[][]) thing; //! castToRows: a cast to type byte[][], an array of arrays, which the card does not have
    }

    boolean isString() {
        return thing instanceof String; //! isString: class java.lang.String is neither on the card nor in an export file
    }

    void list() {
        thing = new java.util.ArrayList<Object>(); //! list: class java.util.ArrayList is neither on the card nor in an export file
    }

    void hash() {
        thing.hashCode(); //! hash: a parameter or the result of java.lang.Object.hashCode has type int, which the card does not have
    }

    boolean same() {
        return thing.getClass() == null; //! same: java.lang.Object.getClass() is not on the card (docs/api.table lists what can be)
    }

    void copied() {
        thing = new byte[1].clone(); //! copied: java.lang.Object.clone() is not on the card (docs/api.table lists what can be)
    }

    void caught() {
        try {
            thing = null;
        } catch (IllegalStateException e) { //! caught: class java.lang.IllegalStateException is neither on the card nor in an export file
            thing = this;
        }
    }

    void message() {
        throw new RuntimeException((String) null); //! message: class java.lang.String is neither on the card nor in an export file //! message: java.lang.RuntimeException(java.lang.String) is not on the card (docs/api.table lists what can be)
    }

    void cause() {
        throw new RuntimeException((Throwable) null); //! cause: java.lang.RuntimeException(java.lang.Throwable) is not on the card (docs/api.table lists what can be)
    }
}
