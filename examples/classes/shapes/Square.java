package shapes;

/** A class that implements what its superinterface made abstract again, and calls a default method by its own name. */
public class Square implements Sided {
    protected int side = COUNT;

    @Override
    public int area() {
        return side * side;
    }

    @Override
    public Square grown() {
        Square square = new Square();
        square.side = side + 1;
        return square;
    }

    @Override
    public String describe() {
        return NAME;
    }

    public int corners() {
        return sides();
    }
}
