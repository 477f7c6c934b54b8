package hiding;

/** Reads each field through each class by which it has a name. */
public class Leaf extends Middle implements Numbered {
    public static int z = 6;
    int x = 7;

    long all() {
        Base base = this;
        Middle middle = this;
        return x + super.x + base.x + y + base.y + middle.y + z + Middle.z + Base.z + wide + middle.wide;
    }

    static int first() {
        return Leaf.FIRST + Middle.FIRST + Named.FIRST + ALL.length + Leaf.ALL[0];
    }

    static int twices() {
        return Leaf.twice(1) + Middle.twice(1) + Base.twice(1) + new Leaf().sum();
    }

    Object lock() {
        synchronized (LOCK) {
            return Leaf.TITLE.equals(title()) ? Leaf.LOCK : Named.LOCK;
        }
    }
}
