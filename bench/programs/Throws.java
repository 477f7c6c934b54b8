/** Exceptions: made, thrown through three frames with a finally in one, and caught. */
public class Throws {
    static int finished;

    static int deep(int frames) {
        if (frames == 0) {
            throw new IllegalStateException("bottom");
        }
        try {
            return deep(frames - 1) + 1;
        } finally {
            finished++;
        }
    }

    public static void main(String[] arguments) {
        int caught = 0;
        for (int turn = 0; turn < 4_000; turn++) {
            try {
                caught += deep(2);
            } catch (IllegalStateException thrown) {
                caught += thrown.getMessage().length();
            }
        }
        System.out.println(caught + finished);
    }
}
