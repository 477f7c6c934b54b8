package change;

/** An interface with a method of which `First` later has one, too. */
public interface Second {
    default int told() {
        return 2;
    }
}
