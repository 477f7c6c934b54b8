/** What `finally` brings about: behind a return and a throw, in place of both, and in blocks that stand seven deep in one another. */
public class Main {
    static String trail = "";

    static void note(String what) {
        trail = trail + what + " ";
    }

    static int returned() {
        int value = 1;
        try {
            return value;
        } finally {
            value = 2;
            note("too late for " + value);
        }
    }

    /** The `return` of the last block stands, whatever happened before it. */
    @SuppressWarnings("finally")
    static int overruled(int divisor) {
        for (int i = 0;; i++) {
            try {
                return 100 / divisor;
            } finally {
                if (i < 2) {
                    continue;
                }
                return -i;
            }
        }
    }

    static void fail(int kind) {
        int[] items = kind == 2 ? null : new int[kind == 3 ? -1 : 3];
        items[kind == 1 ? 3 : 0] = 12 / (kind - 4);
        Object text = "text";
        items = kind == 5 ? (int[]) text : items;
        if (kind == 6) {
            throw new IllegalStateException("six");
        }
        note("sound " + items[0]);
    }

    static int nested(int kind) {
        int depth = 7;
        try { try { try { try { try { try { try {
            synchronized (Main.class) {
                fail(kind);
                return depth;
            }
        } catch (ClassCastException e) { note("cast"); } finally { depth--; }
        } catch (ArithmeticException e) { note("division"); } finally { depth--; }
        } catch (NegativeArraySizeException e) { note("size"); throw new IllegalArgumentException("a new one"); } finally { depth--; }
        } catch (NullPointerException e) { note("null"); throw e; } finally { depth--; }
        } catch (ArrayIndexOutOfBoundsException e) { note("index"); return depth; } finally { depth--; }
        } catch (IllegalArgumentException | NullPointerException e) { note("either"); } finally { depth--; }
        } finally { note("depth " + --depth); }
        return depth;
    }

    public static void main(String[] args) {
        System.out.println(returned() + " " + overruled(7) + " " + overruled(0) + " " + trail);
        for (int kind = 0; kind < 8; kind++) {
            trail = kind + ": ";
            try {
                note("gives " + nested(kind));
            } catch (IllegalStateException e) {
                note("passed " + e.getMessage());
            } finally {
                System.out.println(trail);
            }
        }
    }
}
