/** Puzzles on a chess board whose sets of squares are longs, a bit for each: eight queens, a knight's ways, and the area of a region. */
public class Main {
    static final long FILE_A = 0x0101010101010101L, FILE_H = FILE_A << 7, ROW_1 = 0xFF;
    static final long MIX = 0x03F79D71B4CB0A89L;
    static final int[] PLACES = new int[64];
    static int found;
    static long least;

    static {
        for (int i = 0; i < 64; i++) {
            PLACES[(int) (MIX << i >>> 58)] = i;
        }
    }

    static int place(long bit) {
        return PLACES[(int) (bit * MIX >>> 58)];
    }

    static int size(long set) {
        return set == 0 ? 0 : 1 + size(set & set - 1);
    }

    /** All squares that a queen on a square sees, and that square. */
    static long seen(int square) {
        int x = square & 7, y = square >> 3;
        long set = FILE_A << x | ROW_1 << 8 * y;
        for (int i = 0; i < 64; i++) {
            int dx = (i & 7) - x, dy = (i >> 3) - y;
            set |= dx == dy || dx == -dy ? 1L << i : 0;
        }
        return set;
    }

    static void queens(long free, long placed, int row) {
        if (row == 8) {
            found++;
            least = found == 1 || placed < least ? placed : least;
            return;
        }
        for (long left = free & ROW_1 << 8 * row; left != 0; left &= left - 1) {
            long bit = left & -left;
            queens(free & ~seen(place(bit)), placed | bit, row + 1);
        }
    }

    static long near(long set) {
        return set << 8 | set >>> 8 | (set & ~FILE_H) << 1 | (set & ~FILE_A) >>> 1;
    }

    static long jumps(long set) {
        long one = (set & ~FILE_A) >>> 1 | (set & ~FILE_H) << 1;
        long two = (set & ~(FILE_A | FILE_A << 1)) >>> 2 | (set & ~(FILE_H | FILE_H >>> 1)) << 2;
        return one << 16 | one >>> 16 | two << 8 | two >>> 8;
    }

    static void print(long set) {
        for (int i = 0; i < 64; i++) {
            System.out.print((set >>> i & 1) == 1 ? "#" : ".");
            System.out.print(i % 8 == 7 ? "\n" : "");
        }
    }

    public static void main(String[] args) {
        queens(-1L, 0, 0);
        System.out.println(found + " ways, the least is " + least);
        print(least);
        long reached = 1L << 63;
        for (int moves = 0; moves < 8; moves++) {
            System.out.println(moves + " moves: " + size(reached) + " " + reached);
            reached |= jumps(reached);
        }
        long walls = 0x00FF0101017D4544L ^ least, region = 1L << place(~walls & -~walls);
        while ((region | near(region) & ~walls) != region) {
            region |= near(region) & ~walls;
        }
        System.out.println(size(region) + " squares of " + size(~walls));
        print(region);
    }
}
