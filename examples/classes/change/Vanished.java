package change;

/** A class that is later not there. */
public class Vanished {
    public static int asked() {
        return 1;
    }
}
