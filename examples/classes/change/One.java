package change;

/** A class that later inherits from `Other`, which later inherits from it. */
public class One {
    public static int asked() {
        return 1;
    }
}
