package flow;

/** Switches over ints and over texts. */
public class Switches {
    static int dense(int n) {
        switch (n) {
            case 1:
                return 10;
            case 2:
            case 3:
                return 20;
            default:
                return 30;
        }
    }

    static int sparse(long n) {
        switch ((int) n) {
            case -1000000:
                return 1;
            case 1000000:
                return 2;
            default:
                return 3;
        }
    }

    static int text(String word) {
        switch (word) {
            case "one":
                return 1;
            case "two":
                return 2;
            default:
                return word.charAt(0);
        }
    }
}
