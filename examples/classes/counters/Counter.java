package counters;

/** Members of each access, and a nested class that is protected. */
public abstract class Counter {
    private int hidden = 1;
    int near = 2;
    protected int count;
    protected static int made;
    public final String name;

    protected Counter(String name) {
        this.name = name;
        made += hidden;
    }

    protected static final class Mark {
        public final int at;

        public Mark(int at) {
            this.at = at;
        }
    }

    protected abstract int next();

    protected int step() {
        return add(near);
    }

    protected static int total() {
        return made;
    }

    int add(int more) {
        count += more;
        return count;
    }

    private int hide() {
        return hidden;
    }

    public int all() {
        return hide() + step() + next();
    }
}
