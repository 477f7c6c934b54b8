package counters.far;

import counters.Counter;

/** A subclass in another package: protected members by `this`, by `super` and by the name of the class; a method of its own with the name of one of the package. */
public class FarCounter extends Counter {
    protected int count = 7;

    public FarCounter() {
        super("far");
    }

    @Override
    protected int next() {
        return super.count + count + made + total() + FarCounter.total();
    }

    @Override
    protected int step() {
        return super.step() + new Mark(next()).at;
    }

    int add(int more) {
        return more;
    }

    class Reader {
        int read() {
            return FarCounter.super.count + step() + made;
        }
    }

    public int readAll() {
        return new Reader().read() + add(1);
    }
}
