/** An interface with code: a default method, a static one, and fields that its initialisation sets. */
public interface Defaults {
    int TWO = Integer.parseInt("2");

    default int twice(int n) {
        return TWO * n;
    }

    static Defaults plain() {
        return new Defaults() {};
    }
}
