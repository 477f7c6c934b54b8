package change;

/** The later form: a method of which `Second` has one, too. */
public interface First {
    default int asked() {
        return 1;
    }

    default int told() {
        return 1;
    }
}
