package counters.far;

import counters.Twice;

/** Two classes further down, calling what each of the classes above declares, through its own name. */
public class FarTwice extends Twice {
    @Override
    public int next() {
        FarTwice other = new FarTwice();
        other.count = count;
        return super.next() + other.all() + other.name.length() + this.step();
    }
}
