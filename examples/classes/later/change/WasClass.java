package change;

/** The later form: an interface. */
public interface WasClass {
    int value = Integer.parseInt("1");

    static int asked() {
        return 1;
    }
}
