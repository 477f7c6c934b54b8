package generic;

/** A class over a type. */
public class Box<T> {
    protected T held;

    public Box(T held) {
        this.held = held;
    }

    public T get() {
        return held;
    }

    public void put(T next) {
        held = next;
    }

    public Box<T> copy() {
        return new Box<T>(held);
    }
}
