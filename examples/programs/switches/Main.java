/** Switches as tables and as look-ups: keys with gaps, negative and extreme keys, cases that fall through, characters and strings. */
public class Main {
    /** A table, whose gaps lead to the default in its middle. */
    static String dense(int key) {
        switch (key) {
            case -3: return "minus three";
            case -1: return "minus one";
            case 0: return "zero";
            default: return "other";
            case 2: return "two";
            case 4: return "four";
        }
    }

    /** A look-up, whose keys are far from one another. */
    static int sparse(int key) {
        switch (key) {
            case Integer.MIN_VALUE: return 1;
            case -70000: return 3;
            case 1000: return 4;
            case 1000000: return 5;
            case Integer.MAX_VALUE: return 6;
            default: return 0;
        }
    }

    static int daysBefore(int month) {
        int days = 0;
        switch (month) {
            case 12: days += 30;
            case 11: days += 31;
            case 10: days += 30;
            case 9: days += 31;
            case 8: days += 31;
            case 7: days += 30;
            case 6: days += 31;
            case 5: days += 30;
            case 4: days += 31;
            case 3: days += 28;
            case 2: days += 31;
        }
        return days;
    }

    /** The first two words have one hash code. */
    static int named(String word) {
        switch (word) {
            case "Aa": return 1;
            case "BB": return 2;
            case "": return 3;
            case "a longer word": return 4;
            default: return -1;
        }
    }

    public static void main(String[] args) {
        for (int key = -5; key < 8; key++) {
            System.out.print(dense(key) + (key == 7 ? '\n' : ' '));
        }
        int[] keys = {Integer.MIN_VALUE, Integer.MIN_VALUE + 1, -70001, -70000, -1, 0, 999, 1000, 1001, 1000000, Integer.MAX_VALUE - 1, Integer.MAX_VALUE};
        for (int key : keys) {
            System.out.print(dense(key) + sparse(key) + (key == Integer.MAX_VALUE ? '\n' : ' '));
        }
        for (int month = 0; month < 14; month++) {
            System.out.print(daysBefore(month) + (month == 13 ? "\n" : " "));
        }
        String text = "Seven (7) plus Nine (9) is 16!";
        int vowels = 0, digits = 0, signs = 0, rest = 0;
        for (int i = 0; i < text.length(); i++) {
            switch (text.charAt(i)) {
                case 'a': case 'e': case 'i': case 'o': case 'u': vowels++; break;
                case '0': case '1': case '6': case '7': case '9': digits++; continue;
                case ' ': case '(': case ')': case '!': signs++; break;
                default: rest++;
            }
        }
        System.out.println(vowels + " " + digits + " " + signs + " " + rest);
        System.out.println(named("Aa") + named("BB") * 10 + named("") * 100 + named("a longer word") * 1000 + named("AaB".substring(0, 2)) * 10000 + named("C#"));
    }
}
