package change;

/** An interface that later has a method of which `Second` has one, too. */
public interface First {
    default int asked() {
        return 1;
    }
}
