package change;

/** A class whose members an interface declares later, too. */
public class Right {
    public static int value = 2;

    public int asked() {
        return 2;
    }
}
