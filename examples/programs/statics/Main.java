/** The order in which a class is initialised: constants first, then fields and blocks from top to bottom, and an object that is made on the way. */
public class Main {
    static int marks;
    static int first = mark("first");
    static final int SUM = Main.LATE + 2;
    static Main early = new Main("early");
    static int counted = 10;
    static final int LATE = 40;
    static final long WIDE = LATE * 100000000000L;
    static final String NAME = "a constant";
    static final char LETTER = 'c';
    static final boolean IS_SET = LATE > 1;
    static final short SHORT = -5;
    static final String COMPUTED = text("computed");
    static int[] squares = new int[5];

    static {
        mark("block");
        for (int i = 0; i < squares.length; i++) {
            squares[i] = i * i;
        }
        try {
            squares[squares.length] = 1;
        } catch (ArrayIndexOutOfBoundsException e) {
            mark("caught");
        }
        counted += SUM;
        after = 7;
    }

    static int after;
    static int again = after + mark("again");
    static Main late = new Main("late");

    int own = mark("own");
    final String name;
    long sum;

    {
        mark("block of an object");
        sum = counted + WIDE;
    }

    Main(String name) {
        this.name = name;
        counted++;
        mark("constructor " + name);
        System.out.print("  sees " + marks + " " + first + " " + LATE + SUM + NAME + LETTER + IS_SET + SHORT);
        System.out.println(" " + COMPUTED + counted + " " + again + (squares == null));
    }

    Main() {
        this("unnamed");
        counted += 100;
        mark("other constructor");
    }

    static int mark(String what) {
        System.out.println(++marks + " " + what);
        return marks;
    }

    static String text(String what) {
        return what + mark(what);
    }

    public static void main(String[] args) {
        mark("main");
        Main last = new Main();
        Main[] all = {early, late, last};
        for (Main one : all) {
            System.out.println(one.name + " " + one.own + " " + one.sum);
        }
        System.out.println(counted + " " + after + " " + again + " " + squares[4] + " " + marks + " " + WIDE);
    }
}
