package counters;

/** A class of the same package, not a subclass, which reads what is protected or of the package. */
class Near {
    static int read(Counter counter) {
        return counter.near + counter.count + counter.add(1) + counter.step() + Counter.made;
    }

    static int marked() {
        return new Counter.Mark(5).at;
    }
}
