/** Sieves over plain arrays: the lucky numbers, Ulam's numbers, sums of two squares, and who is left of a circle of people. */
public class Main {
    /** Of the numbers that are left each strikes out every so many of them, counted from the first. */
    static int[] lucky(int most) {
        int[] left = new int[most];
        int count = 0;
        for (int n = 1; n <= most; n += 2) {
            left[count++] = n;
        }
        for (int at = 1; at < count && left[at] <= count; at++) {
            int step = left[at], kept = 0;
            for (int i = 0; i < count; i++) {
                if ((i + 1) % step != 0) {
                    left[kept++] = left[i];
                }
            }
            count = kept;
        }
        int[] found = new int[count];
        while (--count >= 0) {
            found[count] = left[count];
        }
        return found;
    }

    /** A number follows where it is the sum of two earlier ones in exactly one way. */
    static int[] ulam(int most) {
        byte[] ways = new byte[most + 1];
        int[] found = new int[most];
        int count = 0;
        ways[1] = ways[2] = 1;
        for (int n = 1; n <= most; n++) {
            if (ways[n] == 1) {
                for (int i = 0; i < count && n + found[i] <= most; i++) {
                    ways[n + found[i]] += n + found[i] == 3 || ways[n + found[i]] < 2 ? 1 : 0;
                }
                found[count++] = n;
            }
        }
        return found;
    }

    static boolean[] squares(int most) {
        boolean[] marked = new boolean[most + 1];
        for (int a = 0; a * a <= most; a++) {
            for (int b = a; a * a + b * b <= most; b++) {
                marked[a * a + b * b] = true;
            }
        }
        return marked;
    }

    static long last(int people, int step) {
        long place = 0;
        for (int alive = 2; alive <= people; alive++) {
            place = (place + step) % alive;
        }
        return place + 1;
    }

    public static void main(String[] args) {
        int[] lucky = lucky(3000), ulam = ulam(500);
        long sum = 0;
        for (int i = 0; i < lucky.length; i++) {
            sum += (long) lucky[i] * lucky[i] * i;
            if (i < 25 || i + 3 > lucky.length) {
                System.out.print(lucky[i] + " ");
            }
        }
        System.out.println("of " + lucky.length + ", " + sum);
        for (int i = 0; ulam[i] != 0; i++) {
            System.out.print(ulam[i] + (ulam[i + 1] == 0 ? "\n" : i % 20 == 19 ? ",\n" : " "));
        }
        boolean[] squares = squares(100);
        for (int n = 0; n < squares.length; n++) {
            System.out.print(squares[n] ? n + " " : "");
        }
        System.out.println("\n" + last(41, 3) + " " + last(1000, 2) + " " + last(5000, 7));
    }
}
