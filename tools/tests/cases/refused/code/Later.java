package refused.code;

import javacard.framework.JCSystem;
import javacard.framework.Later;
import javacard.framework.Util;

/** Compiled with an API of a later release. */
class Uses {
    void method() {
        Util.arrayReverse(null, (short) 0, (short) 1); //! method: javacard.framework.Util.arrayReverse(byte[], short, short) is not on the card (docs/api.table lists what can be)
    }

    void object() {
        new Later(); //! object: class javacard.framework.Later is neither on the card nor in an export file
    }

    void field() {
        JCSystem.number = 1; //! field: javacard.framework.JCSystem.number is not there
    }
}
