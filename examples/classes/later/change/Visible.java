package change;

/** The later form: a class of its package alone. */
class Visible {
    public static int value = 1;

    public static int asked() {
        return 1;
    }
}
