package flow;

/** Constants of the pool: ints that no short instruction pushes, longs, texts. */
public class Constants {
    public static final int LARGE = 1000000;
    public static final int SMALLEST = Integer.parseInt("-1") << 31;
    public static final long WIDE = 1234567890123456789L;
    static final long NEGATIVE = -2L;
    static final String QUOTED = "two words, \"quoted\"";
    static final char EURO = '\u20ac';

    static long sum(int n) {
        return n + LARGE + 2147483647 + WIDE + NEGATIVE + (-40000);
    }

    static String text(boolean yes) {
        return QUOTED + EURO + yes + LARGE + "";
    }
}
