package hiding;

/** Hides a field of its superclass, with another type, and a static method. */
public class Middle extends Base implements Named {
    public long y = 5L;

    public static int twice(int n) {
        return n + n + FIRST;
    }

    public String title() {
        return TITLE;
    }
}
