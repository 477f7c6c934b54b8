package flow;

/** Exceptions of one's own, and rows of exception tables over them. */
public class Failure extends Exception {
    private final int code;

    public Failure(String why, int code) {
        super(why);
        this.code = code;
    }

    static class Small extends RuntimeException {
        Small(Throwable cause) {
            super("small", cause);
        }
    }

    static int tried(int n) {
        try {
            if (n < 0) {
                throw new Failure("negative", n);
            }
            return 10 / n;
        } catch (Failure failure) {
            return failure.code + failure.getMessage().length();
        } catch (ArithmeticException | IndexOutOfBoundsException fault) {
            throw new Small(fault);
        } finally {
            System.out.println(n);
        }
    }

    static String cause(int n) {
        try {
            return String.valueOf(tried(n));
        } catch (Small small) {
            Throwable cause = small.getCause();
            return cause == null ? "none" : cause.getMessage();
        }
    }
}
