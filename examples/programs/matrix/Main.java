/** Products of matrices that stand row by row in plain arrays, of ints and of longs: inner loops over one array by strides of another. */
public class Main {
    static int[] product(int[] left, int[] right, int rows, int inner, int columns) {
        int[] result = new int[rows * columns];
        for (int i = 0; i < rows; i++) {
            for (int k = 0; k < inner; k++) {
                int factor = left[i * inner + k];
                for (int j = 0; j < columns; j++) {
                    result[i * columns + j] += factor * right[k * columns + j];
                }
            }
        }
        return result;
    }

    /** The product of two square matrices, whose items wrap at 64 bits. */
    static long[] product(long[] left, long[] right, int size) {
        long[] result = new long[size * size];
        for (int at = 0; at < result.length; at++) {
            long sum = 0;
            for (int k = 0; k < size; k++) {
                sum += left[at / size * size + k] * right[k * size + at % size];
            }
            result[at] = sum;
        }
        return result;
    }

    static long[] power(long[] base, int size, long exponent) {
        long[] result = new long[size * size];
        for (int i = 0; i < size; i++) {
            result[i * size + i] = 1;
        }
        for (; exponent > 0; exponent >>= 1) {
            if ((exponent & 1) == 1) {
                result = product(result, base, size);
            }
            base = product(base, base, size);
        }
        return result;
    }

    static void print(int[] matrix, int columns) {
        for (int i = 0; i < matrix.length; i++) {
            System.out.print(matrix[i]);
            System.out.print(i % columns == columns - 1 ? '\n' : '\t');
        }
    }

    public static void main(String[] args) {
        int[] left = {1, -2, 3, 40, 50, 60}, right = {7, 8, 9, 10, -11, 12};
        print(product(left, right, 2, 3, 2), 2);
        print(product(right, left, 3, 2, 3), 3);
        long[] fibonacci = {1, 1, 1, 0};
        for (long n = 1; n <= 1000000000000L; n = n * 7 + 3) {
            System.out.println("fibonacci " + n + " " + power(fibonacci, 2, n)[1]);
        }
        int size = 24;
        int[] great = new int[size * size];
        for (int i = 0, value = 1; i < great.length; i++, value = value * 1103515245 + 12345) {
            great[i] = value >> 16;
        }
        int[] square = product(great, great, size, size, size);
        int trace = 0, low = square[0], high = square[0], all = 0;
        for (int i = 0; i < square.length; i++) {
            trace += i % (size + 1) == 0 ? square[i] : 0;
            low = square[i] < low ? square[i] : low;
            high = square[i] > high ? square[i] : high;
            all = all * 31 + square[i];
        }
        System.out.println("trace " + trace + " low " + low + " high " + high + " all " + all);
        long[] wide = new long[9];
        for (int i = 0; i < 9; i++) {
            wide[i] = (i - 4) * 3037000500L;
        }
        for (long item : power(wide, 3, 5)) {
            System.out.println(item);
        }
    }
}
