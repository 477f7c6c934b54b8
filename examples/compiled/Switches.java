/** Both kinds of switch, over ints, texts and the values of an enum. */
public class Switches {
    enum Colour { RED, GREEN, BLUE }

    static int dense(int n) {
        switch (n) {
            case 1: return 10;
            case 2: return 20;
            case 3:
            case 5: return 30;
            default: return -1;
        }
    }

    static int sparse(int n) {
        switch (n) {
            case Integer.MIN_VALUE: return 1;
            case 0: return 2;
            case 1000000: return 3;
        }
        return 4;
    }

    static int text(String s) {
        switch (s) {
            case "one": return 1;
            case "two": return 2;
            default: return 0;
        }
    }

    static int colour(Colour c) {
        switch (c) {
            case GREEN: return 1;
            case BLUE: return 2;
            default: return 0;
        }
    }

    public static void main(String[] words) {
        System.out.println(dense(5) + sparse(0) + text("two") + colour(Colour.BLUE));
    }
}
