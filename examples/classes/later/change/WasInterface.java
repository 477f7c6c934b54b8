package change;

/** The later form: a class. */
public class WasInterface {
    public static int VALUE = Integer.parseInt("1");

    public static int asked() {
        return 1;
    }

    public int told() {
        return 1;
    }
}
