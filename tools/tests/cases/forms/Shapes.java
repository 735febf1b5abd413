package forms;

final class Shapes {
    private Shapes() {
    }

    static short run(short a) {
        Shape[] shapes = {new Square((short) 3), new Block((short) 2, a)};
        short sum = Sized.UNIT;
        for (byte at = 0; at < shapes.length; at++) {
            Named named = shapes[at];
            Holder<Shape> holder = new Holder<Shape>(shapes[at].self());
            sum += holder.held().area() * 3 + shapes[at].scaled((short) 5) + named.name() + named.size();
        }
        return sum;
    }
}
