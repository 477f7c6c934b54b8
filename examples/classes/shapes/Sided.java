package shapes;

/** An interface that makes a default method of its superinterface abstract again. */
public interface Sided extends Shape {
    default int sides() {
        return PLANE + 2;
    }

    @Override
    String describe();
}
