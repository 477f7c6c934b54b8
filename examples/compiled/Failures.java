/** Exception rows: catch, several classes at once, finally, nested, and a monitor. */
public class Failures {
    static class Refused extends RuntimeException {
        final int code;

        Refused(String why, int code) {
            super(why);
            this.code = code;
        }
    }

    static synchronized int tried(int n) {
        try {
            try {
                if (n == 0) {
                    throw new Refused("zero", 7);
                }
                return 10 / (n - 1);
            } catch (Refused | ArithmeticException e) {
                return e instanceof Refused ? ((Refused) e).code : -1;
            } finally {
                System.out.println(n);
            }
        } finally {
            synchronized (Failures.class) {
                System.out.println("last");
            }
        }
    }

    public static void main(String[] words) {
        System.out.println(tried(0) + tried(1) + tried(2));
    }
}
