/** Calls that end, and calls that never end until no room is left for a frame: StackOverflowError is caught, and the program goes on. */
public class Main {
    static int entered, left;

    static int ackermann(int m, int n) {
        return m == 0 ? n + 1 : ackermann(m - 1, n == 0 ? 1 : ackermann(m, n - 1));
    }

    static boolean isEven(int n) {
        return n == 0 || isOdd(n - 1);
    }

    static boolean isOdd(int n) {
        return n != 0 && isEven(n - 1);
    }

    static String hanoi(int discs, char from, char over, char to) {
        return discs == 0 ? "" : hanoi(discs - 1, from, to, over) + from + to + " " + hanoi(discs - 1, over, from, to);
    }

    static long binomial(long n, long k) {
        return k == 0 || k == n ? 1 : binomial(n - 1, k - 1) + binomial(n - 1, k);
    }

    static int endless(int n) {
        return n + endless(n + 1);
    }

    int ping(long ball) {
        return pong(ball * 3 + 1, this);
    }

    static int pong(long ball, Main other) {
        return other.ping(ball >> 1);
    }

    /** Whoever finds no room for one frame more answers for all. */
    static int depth(int n) {
        try {
            return depth(n + 1);
        } catch (StackOverflowError e) {
            return n;
        }
    }

    /** Each frame is left as often as it is entered. */
    static int balanced(int most) {
        entered++;
        try {
            return most == 0 ? 0 : balanced(most - 1) + 1;
        } finally {
            left++;
        }
    }

    static String tried(int kind) {
        try {
            switch (kind) {
                case 0: return "ended with " + endless(0);
                case 1: return "ended with " + new Main().ping(1);
                case 2: return depth(0) > 100 ? "more than a hundred frames" : "few frames";
                case 3: return "ended with " + balanced(20);
                default: return "ended with " + balanced(-1);
            }
        } catch (StackOverflowError e) {
            return "no room";
        }
    }

    public static void main(String[] args) {
        System.out.println(ackermann(2, 4) + " " + isEven(200) + " " + isOdd(200) + " " + binomial(14, 6) + " " + hanoi(4, 'a', 'b', 'c'));
        for (int i = 0; i < 10; i++) {
            System.out.println(i % 5 + ": " + tried(i % 5) + ", " + (entered == left));
        }
        System.out.println(ackermann(2, 5));
    }
}
