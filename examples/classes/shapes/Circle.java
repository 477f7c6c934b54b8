package shapes;

/** A class whose default method comes from the nearest of two superinterfaces; its return type is narrower than the interface's. */
public class Circle implements Round {
    private final int radius;

    public Circle(int radius) {
        this.radius = radius;
    }

    @Override
    public int radius() {
        return radius;
    }

    @Override
    public int area() {
        return 3 * radius * radius;
    }

    @Override
    public Circle grown() {
        return new Circle(radius + 1);
    }

    boolean isRound() {
        return describe().equals("round") && radius() == radius;
    }
}
