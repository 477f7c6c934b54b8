package counters;

/** Overrides a method of the package, and a protected one with a wider access. */
public class Twice extends Counter {
    public Twice() {
        super("twice");
    }

    @Override
    int add(int more) {
        return super.add(more + more);
    }

    @Override
    public int next() {
        return Near.read(this) + near;
    }
}
