package change;

/** A class that is later an interface. */
public class WasClass {
    public static int asked() {
        return 1;
    }

    public static int value = Integer.parseInt("1");
}
