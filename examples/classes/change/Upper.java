package change;

/** The upper of three classes: its method is later declared by the middle one, too. */
public class Upper {
    public static int value = 1;

    public int asked() {
        return 1;
    }
}
