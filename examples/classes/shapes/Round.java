package shapes;

/** An interface that declares a default method of its superinterface anew. */
public interface Round extends Shape {
    int radius();

    @Override
    default String describe() {
        return "round";
    }
}
