package change;

/** The later form: members are gone, have another type, or another access. */
public class Api {
    public int kept = 1;
    public long retyped = 3;
    private int hidden = 4;
    protected int guarded = 5;
    static int near = 6;

    public int kept() {
        return 1;
    }

    public int retyped(long n) {
        return (int) n;
    }

    private int hidden() {
        return hidden;
    }

    protected static int guarded() {
        return 5;
    }

    static int near() {
        return 6;
    }

    public Api() {}
}
