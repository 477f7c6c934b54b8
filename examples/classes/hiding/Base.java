package hiding;

/** Fields that classes below hide. */
public class Base {
    public int x = 1;
    public int y = 2;
    public static int z = 3;
    protected long wide = 4L;

    public int sum() {
        return x + y + z;
    }

    public static int twice(int n) {
        return 2 * n;
    }
}
