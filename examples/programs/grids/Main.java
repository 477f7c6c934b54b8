/** Arrays of arrays: the game of life on a ring of rows, a triangle, a cube, rows that are shared or missing, and sizes that can't be. */
public class Main {
    static boolean[][] next(boolean[][] cells) {
        int height = cells.length, width = cells[0].length;
        boolean[][] after = new boolean[height][width];
        for (int y = 0; y < height; y++) {
            for (int x = 0; x < width; x++) {
                int near = cells[y][x] ? -1 : 0;
                for (int at = 0; at < 9; at++) {
                    near += cells[(y + at / 3 + height - 1) % height][(x + at % 3 + width - 1) % width] ? 1 : 0;
                }
                after[y][x] = near == 3 || cells[y][x] && near == 2;
            }
        }
        return after;
    }

    static void print(boolean[][] cells) {
        for (boolean[] row : cells) {
            for (boolean cell : row) {
                System.out.print(cell ? '#' : '.');
            }
            System.out.println();
        }
    }

    static String made(int kind) {
        try {
            switch (kind) {
                case 0: return "rows " + new int[3][0].length + " " + new int[0][3].length + " " + new long[2][3][][].length;
                case 1: return "rows " + new byte[2][-1].length;
                case 2: return "rows " + new byte[-2][1].length;
                case 3: short[][][] open = new short[2][3][]; return "row of " + open[1][2].length;
                default: return "item " + new char[2][3][1][1].length + (new Object[2][2][0] == null);
            }
        } catch (NegativeArraySizeException e) {
            return "a negative size";
        } catch (NullPointerException e) {
            return "a missing row";
        }
    }

    public static void main(String[] args) {
        boolean[][] cells = new boolean[6][10];
        for (int i = 0; i < 9; i++) {
            cells[i / 3][i % 3] = ".#...####".charAt(i) == '#';
        }
        for (int generation = 0; generation < 4; generation++) {
            print(cells);
            cells = next(cells);
        }
        int[][] triangle = new int[10][];
        for (int i = 0; i < 10; i++) {
            triangle[i] = new int[i + 1];
            triangle[i][0] = triangle[i][i] = 1;
            for (int j = 1; j < i; j++) {
                triangle[i][j] = triangle[i - 1][j - 1] + triangle[i - 1][j];
            }
        }
        System.out.println("middle " + triangle[8][4] + " of a row of " + triangle[8].length);
        long[][][] cube = new long[3][4][5];
        long sum = 0;
        for (int i = 0; i < 60; i++) {
            cube[i / 20][i / 5 % 4][i % 5] += (long) i * i << i % 40;
        }
        cube[0] = cube[2];
        cube[0][1][1]++;
        for (long[][] plane : cube) {
            for (long[] row : plane) {
                for (long item : row) {
                    sum = sum * 3 + item;
                }
            }
        }
        System.out.println("cube " + sum + " shared " + (cube[0][1] == cube[2][1]) + " " + (cube[2][1][1] - cube[1][1][1]));
        for (int kind = 0; kind < 5; kind++) {
            System.out.println(kind + ": " + made(kind));
        }
    }
}
