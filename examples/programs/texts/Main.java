/** Strings compared and hashed: the same text and the same object, orders, palindromes, places of words, distances, and units beyond ASCII. */
public class Main {
    static int compare(String a, String b) {
        for (int i = 0; i < a.length() && i < b.length(); i++) {
            if (a.charAt(i) != b.charAt(i)) {
                return a.charAt(i) - b.charAt(i);
            }
        }
        return a.length() - b.length();
    }

    static int place(String text, String word) {
        for (int at = 0; at + word.length() <= text.length(); at++) {
            if (text.substring(at, at + word.length()).equals(word)) {
                return at;
            }
        }
        return -1;
    }

    /** Whether a text reads the same from its end, letters alone and in any case. */
    static boolean isPalindrome(String text) {
        int i = 0, j = text.length() - 1;
        while (i < j) {
            int left = text.charAt(i) | 32, right = text.charAt(j) | 32;
            if (left < 'a' || left > 'z') {
                i++;
            } else if (right < 'a' || right > 'z') {
                j--;
            } else if (left != right) {
                return false;
            } else {
                i++;
                j--;
            }
        }
        return true;
    }

    /** How many letters have to be changed, left out or put in to make one word of the other. */
    static int distance(String a, String b) {
        int[] row = new int[b.length() + 1];
        for (int i = 0; i <= a.length(); i++) {
            int corner = i - 1;
            for (int j = 0; j <= b.length(); j++) {
                int above = row[j], best = i == 0 ? j : j == 0 ? i : corner + (a.charAt(i - 1) == b.charAt(j - 1) ? 0 : 1);
                best = i > 0 && above + 1 < best ? above + 1 : best;
                best = j > 0 && row[j - 1] + 1 < best ? row[j - 1] + 1 : best;
                corner = above;
                row[j] = best;
            }
        }
        return row[b.length()];
    }

    static String cut(String text, int start, int end) {
        try {
            return "[" + text.substring(start, end) + "]" + text.charAt(end);
        } catch (StringIndexOutOfBoundsException e) {
            return "outside";
        }
    }

    public static void main(String[] args) {
        String[] words = {"", "a", "b", "ab", "Ab", "abc", "AaBB", "BBAa", "kitten", "sitting", "\u00e9t\u00e9", "\u65e5\u672c", "\ud83d\ude00!", "zzzzzzzzzzzz"};
        for (String word : words) {
            System.out.print(word + " " + word.length() + " " + word.hashCode());
            for (String other : words) {
                System.out.print(word.equals(other) ? " =" : " " + compare(word, other) + "/" + distance(word, other));
            }
            System.out.println();
        }
        String built = "a" + words[2].charAt(0);
        System.out.println(built.equals("ab") + " " + (built == "ab") + " " + (words[3] == "a" + "b") + " " + (built.toString() == built) + " " + "ab".equals(null));
        System.out.print(isPalindrome("A man, a plan, a canal: Panama"));
        System.out.println(isPalindrome("abca"));
        System.out.println(place("the other mother", "other") + " " + place("the other mother", "others") + " " + place("aaab", "ab") + " " + place("x", ""));
        System.out.println(cut("0123456", 2, 5) + cut("0123456", 4, 4) + cut("0123456", 5, 7) + cut("0123", 3, 2) + cut("0123", -1, 2) + cut("0123", 0, 5));
    }
}
