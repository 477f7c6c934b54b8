package statics;

/** Static methods of an interface, which no class below inherits, and one that makes a class nested in the interface. */
public interface Factory {
    Product make(int number);

    static Factory plain() {
        return new Plain();
    }

    static Product made(int number) {
        return plain().make(number);
    }

    class Plain implements Factory {
        @Override
        public Product make(int number) {
            return new Product(number);
        }
    }
}
