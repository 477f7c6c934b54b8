package statics;

/** Static members, which a subclass has by its own name too, and a holder class that is initialised late. */
public class Product {
    static int made;
    protected final int number;

    static {
        made = Integer.parseInt("0");
    }

    Product(int number) {
        this.number = number;
        count();
    }

    static int count() {
        return ++made;
    }

    static Product shared() {
        return Holder.ONLY;
    }

    private static class Holder {
        static final Product ONLY = new Product(0);
    }
}
