package generic;

/** An interface over a type, with a default method that makes an anonymous class. */
public interface Order<T> {
    int compare(T one, T other);

    default Order<T> reversed() {
        final Order<T> first = this;
        return new Order<T>() {
            @Override
            public int compare(T one, T other) {
                return first.compare(other, one);
            }

            @Override
            public Order<T> reversed() {
                return first;
            }
        };
    }

    static <T> T larger(Order<T> order, T one, T other) {
        return order.compare(one, other) < 0 ? other : one;
    }
}
