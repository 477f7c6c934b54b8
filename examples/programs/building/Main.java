/** Text is built piece by piece from values of each kind: roman numerals, numbers in other bases, columns that line up, a frame around lines. */
public class Main {
    static final int[] VALUES = {1000, 900, 500, 400, 100, 90, 50, 40, 10, 9, 5, 4, 1};
    static final String[] SIGNS = {"M", "CM", "D", "CD", "C", "XC", "L", "XL", "X", "IX", "V", "IV", "I"};

    static String roman(int number) {
        StringBuilder text = new StringBuilder();
        for (int i = 0; i < VALUES.length; i++) {
            for (; number >= VALUES[i]; number -= VALUES[i]) {
                text.append(SIGNS[i]);
            }
        }
        return text.toString();
    }

    static String inBase(long number, int base) {
        String digits = "";
        for (long rest = number; rest != 0 || digits.length() == 0; rest /= base) {
            int digit = (int) (rest % base);
            digits = "0123456789abcdefghijklmnopqrstuvwxyz".charAt(digit < 0 ? -digit : digit) + digits;
        }
        return number < 0 ? "-" + digits : digits;
    }

    static String right(String text, int width) {
        StringBuilder padded = new StringBuilder();
        while (padded.length() + text.length() < width) {
            padded.append(' ');
        }
        return padded.append(text).toString();
    }

    static String framed(String[] lines) {
        int width = 0;
        for (String line : lines) {
            width = line.length() > width ? line.length() : width;
        }
        StringBuilder bar = new StringBuilder().append('+');
        for (int i = -2; i < width; i++) {
            bar.append('-');
        }
        String edge = bar.append("+\n").toString();
        String frame = edge;
        for (String line : lines) {
            frame += "| " + line + right("", width - line.length()) + " |\n";
        }
        return frame + edge;
    }

    public static void main(String[] args) {
        for (int year = 1; year < 4000; year = year * 3 + 1) {
            System.out.println(right(roman(year), 16) + right(String.valueOf(year), 6));
        }
        long[] numbers = {0, 255, -255, 4294967296L, Long.MAX_VALUE, Long.MIN_VALUE};
        for (long number : numbers) {
            System.out.println(number + " = " + inBase(number, 2) + " = " + inBase(number, 16) + " = " + inBase(number, 36));
        }
        System.out.print(framed(new String[] {"a frame", "", "is as wide as", "its widest line"}));
        char letter = 'x';
        byte small = -3;
        short little = -300;
        boolean odd = args.length % 2 == 1;
        String none = null;
        System.out.println("one of each: " + letter + small + little + odd + !odd + 12345 + -6789012345L + none);
        System.out.println("sums first: " + (letter + 1) + (char) (letter + 1) + (small + little));
        String grown = "";
        for (char c = 'a'; c <= 'z'; c += 3) {
            grown += c;
            grown += (int) c;
        }
        System.out.println(grown + " has " + grown.length());
        System.out.print(String.valueOf(letter) + String.valueOf(odd) + String.valueOf(1L << 40) + '\n');
    }
}
