package forms;

/** A type with a parameter, of which the card sees nothing. */
class Holder<T extends Sized> {
    private T held;

    Holder(T held) {
        this.held = held;
    }

    T held() {
        return held;
    }
}
