/** Arrays: primes by the sieve in an array of ints, then the sums of rows of an array of arrays of longs. */
public class Arrays {
    static int primes(int[] crossed) {
        int found = 0;
        for (int number = 2; number < crossed.length; number++) {
            if (crossed[number] == 0) {
                found++;
                for (int multiple = number + number; multiple < crossed.length; multiple += number) {
                    crossed[multiple] = 1;
                }
            }
        }
        return found;
    }

    public static void main(String[] arguments) {
        int found = 0;
        for (int round = 0; round < 30; round++) {
            found += primes(new int[1_000]);
        }
        long[][] rows = new long[100][100];
        long sum = 0;
        for (int round = 0; round < 100; round++) {
            for (int row = 0; row < rows.length; row++) {
                for (int column = 0; column < rows[row].length; column++) {
                    rows[row][column] += row * column + round;
                    sum += rows[row][column];
                }
            }
        }
        System.out.println(found);
        System.out.println(sum);
    }
}
