package change;

/** An interface that is later a class. */
public interface WasInterface {
    int VALUE = Integer.parseInt("1");

    static int asked() {
        return 1;
    }

    default int told() {
        return 1;
    }
}
