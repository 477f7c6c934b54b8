/** One frame: longs with shifts and products, a congruential generator. */
public class Longs {
    public static void main(String[] arguments) {
        long state = 20_261_202L;
        long sum = 0;
        for (int turn = 0; turn < 4_000_000; turn++) {
            state = state * 6364136223846793005L + 1442695040888963407L;
            sum += (state >>> 33) ^ turn;
        }
        System.out.println(sum);
    }
}
