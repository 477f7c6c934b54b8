/** One row of numbers sorted in three ways, with the comparisons counted that each takes: by insertion, by parting, by merging. */
public class Main {
    static int compared;

    static boolean isLess(long a, long b) {
        compared++;
        return a < b;
    }

    static void swap(long[] row, int i, int j) {
        long item = row[i];
        row[i] = row[j];
        row[j] = item;
    }

    static void insert(long[] row) {
        for (int i = 1; i < row.length; i++) {
            for (int j = i; j > 0 && isLess(row[j], row[j - 1]); j--) {
                swap(row, j, j - 1);
            }
        }
    }

    static void part(long[] row, int low, int high) {
        if (low >= high) {
            return;
        }
        long middle = row[low + high >>> 1];
        int i = low, j = high;
        while (i <= j) {
            while (isLess(row[i], middle)) {
                i++;
            }
            while (isLess(middle, row[j])) {
                j--;
            }
            if (i <= j) {
                swap(row, i++, j--);
            }
        }
        part(row, low, j);
        part(row, i, high);
    }

    static void merge(long[] row, long[] room, int low, int above) {
        if (above - low < 2) {
            return;
        }
        int middle = (low + above) / 2, i = low, j = middle;
        merge(row, room, low, middle);
        merge(row, room, middle, above);
        for (int at = low; at < above; at++) {
            room[at] = j == above || i < middle && !isLess(row[j], row[i]) ? row[i++] : row[j++];
        }
        for (int at = low; at < above; at++) {
            row[at] = room[at];
        }
    }

    public static void main(String[] args) {
        for (int way = 0; way < 3; way++) {
            long[] row = new long[200];
            for (int i = 0, seed = 5; i < row.length; i++) {
                seed = seed * 69069 + 1;
                row[i] = (long) (seed >> 8) * seed;
            }
            compared = 0;
            switch (way) {
                case 0: insert(row); break;
                case 1: part(row, 0, row.length - 1); break;
                default: merge(row, new long[row.length], 0, row.length);
            }
            long sum = 0;
            for (long item : row) {
                sum = sum * 31 + item;
            }
            System.out.println(way + ": " + compared + " " + row[0] + " " + row[100] + " " + row[199] + " " + sum);
        }
    }
}
