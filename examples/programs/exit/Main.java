/** A search through a maze that ends the program where it finds the way out, in the middle of its calls: nothing that is behind them runs. */
public class Main {
    static final String[] MAZE = {
        "###########",
        "#s  #     #",
        "# # # ### #",
        "# #   #   #",
        "# ##### ###",
        "#     #  o#",
        "# ### # # #",
        "# #     # #",
        "###########",
    };

    final char[][] seen = new char[MAZE.length][];
    int calls;

    Main() {
        for (int y = 0; y < seen.length; y++) {
            seen[y] = new char[MAZE[y].length()];
            for (int x = 0; x < seen[y].length; x++) {
                seen[y][x] = MAZE[y].charAt(x);
            }
        }
    }

    void print() {
        for (char[] row : seen) {
            for (char c : row) {
                System.out.print(c);
            }
            System.out.println();
        }
    }

    /** Ends the program with the length of the way as its status; a dead end is marked on the way back. */
    void search(int x, int y, int length) {
        calls++;
        char here = seen[y][x];
        if (here == 'o') {
            print();
            System.out.println("out after " + length + " of " + calls);
            try {
                System.exit(length);
            } finally {
                System.out.println("not reached");
            }
        }
        if (here != ' ' && here != 's') {
            return;
        }
        seen[y][x] = '.';
        try {
            search(x, y + 1, length + 1);
            search(x + 1, y, length + 1);
            search(x, y - 1, length + 1);
            search(x - 1, y, length + 1);
        } finally {
            seen[y][x] = 'x';
            System.out.println("back from " + x + " " + y);
        }
    }

    public static void main(String[] args) {
        try {
            new Main().search(1, 1, 0);
        } catch (RuntimeException e) {
            System.out.println("not thrown");
        } finally {
            System.out.println("not found");
        }
    }
}
