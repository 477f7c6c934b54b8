package change;

/** The later form: it inherits from `Other`. */
public class One extends Other {
    public static int asked() {
        return 1;
    }
}
