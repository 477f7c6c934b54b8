package generic;

/** Overrides methods over a type by methods over texts: bridges for the argument, for the result, and for the class. */
public class TextBox extends Box<String> {
    public TextBox(String held) {
        super(held);
    }

    @Override
    public String get() {
        return held.length() == 0 ? "empty" : super.get();
    }

    @Override
    public void put(String next) {
        super.put(next.substring(0, next.length()));
    }

    @Override
    public TextBox copy() {
        return new TextBox(get());
    }

    static String through(Box<String> box) {
        box.put(box.get());
        return box.copy().get();
    }
}
