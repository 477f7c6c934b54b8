package change;

/** What the classes of `change.user` use. A later form of it is in the folder `later`. */
public class Api {
    public int kept = 1;
    public int gone = 2;
    public int retyped = 3;
    public int hidden = 4;
    public int guarded = 5;
    public static int near = 6;

    public int kept() {
        return 1;
    }

    public int gone() {
        return 2;
    }

    public int retyped(int n) {
        return n;
    }

    public int hidden() {
        return 4;
    }

    public static int guarded() {
        return 5;
    }

    public static int near() {
        return 6;
    }

    public Api() {}

    public Api(int n) {
        kept = n;
    }
}
