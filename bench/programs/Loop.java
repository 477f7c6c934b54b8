/** One frame: a loop of ints over local variables, with a branch in it; 13 to 17 instructions a turn. */
public class Loop {
    public static void main(String[] arguments) {
        int mixed = 7;
        for (int turn = 0; turn < 5_000_000; turn++) {
            mixed = mixed * 33 + turn;
            if ((mixed & 2) == 0) {
                mixed = mixed ^ (turn << 3);
            }
        }
        System.out.println(mixed);
    }
}
