package refused.types;

interface Body {
    default short number() {
        return 1; //! number: an interface has code, which the card does not have
    }
}
