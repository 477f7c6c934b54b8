/** Static fields: two of them read and written in a loop. */
public class Statics {
    static int count = 1;
    static long total;

    public static void main(String[] arguments) {
        for (int turn = 0; turn < 2_000_000; turn++) {
            count = count * 5 + turn;
            total += count;
        }
        System.out.println(total);
    }
}
