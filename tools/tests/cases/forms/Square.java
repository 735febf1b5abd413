package forms;

class Square extends Shape {
    protected final short side;

    Square(short side) {
        this.side = side;
    }

    public short size() {
        return side;
    }

    public byte name() {
        return 'q';
    }

    /** Has a result of its own type, so that javac makes a bridge. */
    Square self() {
        return this;
    }
}
