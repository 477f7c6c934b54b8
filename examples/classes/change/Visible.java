package change;

/** A class that is later one of its package alone. */
public class Visible {
    public static int value = 1;

    public static int asked() {
        return 1;
    }
}
