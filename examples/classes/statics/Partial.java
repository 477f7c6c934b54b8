package statics;

/** An abstract class that does not declare what its interfaces ask for, and calls it by its own name. */
public abstract class Partial implements Factory, Runnable {
    int started;

    Product begin() {
        run();
        Partial other = this;
        other.run();
        return make(started) == null ? other.make(1) : this.make(2);
    }

    static class Whole extends Partial {
        @Override
        public void run() {
            started++;
        }

        @Override
        public Product make(int number) {
            return new Product(number);
        }

        Product both() {
            return begin() == super.begin() ? Factory.plain().make(3) : make(4);
        }
    }
}
