package generic;

/** A class over a type that is below itself. */
public abstract class Chain<T extends Chain<T>> {
    T next;
    int length = 1;

    abstract T self();

    T then(T other) {
        next = other;
        length += other.length;
        return self();
    }

    static final class Link extends Chain<Link> {
        @Override
        Link self() {
            return this;
        }

        @Override
        Link then(Link other) {
            return super.then(other).self();
        }
    }

    static int three() {
        return new Link().then(new Link().then(new Link())).length;
    }
}
