package forms;

/** Makes a method public that was not, and calls those above. */
class Block extends Square {
    private final short height;

    Block(short side, short height) {
        super(side);
        this.height = height;
    }

    public short area() {
        return (short) (super.area() + height * side);
    }

    short scaled(short by) {
        return (short) (super.scaled(by) + 1);
    }

    public byte name() {
        return (byte) (super.name() + 1);
    }
}
