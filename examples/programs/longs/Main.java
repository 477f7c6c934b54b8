/** Whole numbers at their edges: sums that wrap, products of 128 bits by halves, shifts by any distance, division toward zero, square roots. */
public class Main {
    static final long[] EDGES = {0, 1, -1, 2, -3, 10, Integer.MAX_VALUE, Integer.MIN_VALUE, 1L << 32, -1L << 33, Long.MAX_VALUE, Long.MIN_VALUE, Long.MIN_VALUE + 1};

    /** The high 64 bits of a product. */
    static long high(long a, long b) {
        long lowA = a & 0xFFFFFFFFL, highA = a >> 32, lowB = b & 0xFFFFFFFFL, highB = b >> 32;
        long middle = highA * lowB + (lowA * lowB >>> 32);
        long other = lowA * highB + (middle & 0xFFFFFFFFL);
        return highA * highB + (middle >> 32) + (other >> 32);
    }

    static long root(long square) {
        long low = 0, above = 3037000500L;
        while (above - low > 1) {
            long middle = low + above >>> 1;
            if (middle <= square / middle) {
                low = middle;
            } else {
                above = middle;
            }
        }
        return low;
    }

    static long folded(long sum, long value) {
        sum = sum << 7 ^ sum >>> 57;
        return sum + value;
    }

    static String divided(long a, long b) {
        try {
            return a / b + " rest " + a % b;
        } catch (ArithmeticException e) {
            return "undefined";
        }
    }

    static String divided(int a, int b) {
        try {
            return a / b + " rest " + a % b;
        } catch (ArithmeticException e) {
            return "undefined";
        }
    }

    public static void main(String[] args) {
        for (long a : EDGES) {
            long sum = 0;
            int ints = 0, order = 0;
            for (long b : EDGES) {
                sum = folded(folded(folded(folded(sum, a + b), a - b), a * b), high(a, b));
                sum = folded(folded(folded(sum, a & b), a | b), a ^ ~b);
                sum = folded(folded(folded(sum, a << b), a >> b), a >>> b);
                int x = (int) a, y = (int) b;
                ints = ints * 31 + (x + y ^ x - y) + (x * y & ~x | y) + (x << y ^ x >> y) + (x >>> y);
                order = order * 3 + (a < b ? 0 : a > b ? 2 : 1);
            }
            System.out.println(a + ": " + -a + " " + sum + " " + ints + " " + order + " " + root(a < 0 ? ~a : a));
        }
        for (int i = 0; i < EDGES.length; i++) {
            long other = EDGES[(i * 5 + 2) % EDGES.length];
            System.out.println(divided(EDGES[i], other) + ", " + divided((int) EDGES[i], (int) other));
        }
        System.out.println(divided(Long.MIN_VALUE, -1) + ", " + divided(Integer.MIN_VALUE, -1) + ", " + divided(-7, 2) + ", " + divided(7L, -2L));
        int wrong = 0;
        for (int n = 0; n < 100000; n += 997) {
            wrong += root((long) n * n) == n && root((long) n * (n + 2)) == n ? 0 : 1;
        }
        System.out.println(wrong + " wrong");
        long x = 1;
        int y = 1;
        for (int distance = -65; distance < 66; distance += 13) {
            x ^= x << distance | 5;
            y ^= y << distance | 5;
            System.out.println(distance + " " + x + " " + (x >> distance) + " " + (x >>> distance) + " " + y + " " + (y >> distance) + " " + (y >>> distance));
        }
    }
}
