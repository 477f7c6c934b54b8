package shapes;

/** A diamond: two superinterfaces and a superclass over one interface, with a choice between them by `super`. */
public class Coin extends Circle implements Edged, Face {
    public Coin() {
        super(PLANE);
    }

    @Override
    public String describe() {
        return Edged.super.describe().length() > value() ? super.describe() : Face.super.describe();
    }

    @Override
    public Coin grown() {
        return this;
    }
}

/** An interface beside the class, of its package alone, which takes a default method over as it is. */
interface Edged extends Round {}

/** Another one, which declares the method anew. */
interface Face extends Shape {
    default int value() {
        return 1;
    }

    @Override
    default String describe() {
        return "face";
    }
}
