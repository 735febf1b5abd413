package forms;

/** Leaves both methods of its interfaces open. */
abstract class Shape implements Named {
    short area() {
        return (short) (size() * size());
    }

    short scaled(short by) {
        return (short) (area() * by);
    }

    Shape self() {
        return this;
    }
}
