package arrays;

import shapes.Circle;
import shapes.Shape;
import shapes.Square;

/** Arrays of each kind, of arrays, of own classes; casts to them, tests of them, and their class objects. */
public class Grid {
    private final int[][] cells = new int[3][4];
    private final Shape[][][] shapes = new Shape[2][2][];
    static final byte[] BYTES = {1, -2};
    static final char[] CHARS = {'a', '\u20ac'};
    static final short[] SHORTS = {300};
    static final long[] LONGS = {1L << 40};
    static final boolean[] FLAGS = {true};

    Object filled() {
        shapes[0][0] = new Shape[] {new Circle(1), new Square()};
        shapes[0][1] = new Circle[2];
        cells[1][2] = BYTES[0] + CHARS[1] + SHORTS[0] + (int) LONGS[0] + (FLAGS[0] ? 1 : 0);
        return shapes[0];
    }

    int count(Object found) {
        if (found instanceof Shape[][]) {
            return ((Shape[][]) found).length + ((Shape[][]) found)[0][1].area();
        }
        if (found instanceof int[]) {
            return ((int[]) found).length;
        }
        return found instanceof String[][] ? 1 : 0;
    }

    static Class<?>[] classes() {
        return new Class<?>[] {int[].class, String[].class, Grid[][].class, Grid.class};
    }

    static Grid[] many(int n) {
        Grid[] grids = new Grid[n];
        for (Grid grid : grids) {
            if (grid != null && grid.equals(grids)) {
                return null;
            }
        }
        return grids;
    }
}
