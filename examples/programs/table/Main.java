/** A table of words by their hash codes, whose rows are chains of objects of this class: it grows, finds, counts and forgets. */
public class Main {
    static Main[] rows = new Main[4];
    static int count;

    final String word;
    final int hash;
    long value;
    Main next;

    Main(String word) {
        this.word = word;
        hash = word.hashCode();
    }

    static int row(int hash) {
        return (hash ^ hash >>> 16) & rows.length - 1;
    }

    /** The entry of a word. It is made, and the table grows, where it is wanted and not there. */
    static Main find(String word, boolean isWanted) {
        Main entry = rows[row(word.hashCode())];
        while (entry != null && !(entry.hash == word.hashCode() && entry.word.equals(word))) {
            entry = entry.next;
        }
        return entry == null && isWanted ? new Main(word).link(count++ >= rows.length) : entry;
    }

    Main link(boolean isFull) {
        if (isFull) {
            Main[] before = rows;
            rows = new Main[before.length * 2];
            for (Main entry : before) {
                for (Main rest; entry != null; entry = rest) {
                    rest = entry.next;
                    entry.link(false);
                }
            }
        }
        next = rows[row(hash)];
        rows[row(hash)] = this;
        return this;
    }

    /** The chain without an entry. */
    static Main without(Main chain, Main entry) {
        if (chain != entry) {
            chain.next = without(chain.next, entry);
            return chain;
        }
        count--;
        return entry.next;
    }

    public static void main(String[] args) {
        String text = "the cat and the dog and the cat of the house see the Aa and the BB but not AaAa or BBBB or AaBB ";
        int start = 0;
        for (int end = 0; end < text.length(); end++) {
            if (text.charAt(end) == ' ') {
                find(text.substring(start, end), true).value += 1L << end % 40;
                start = end + 1;
            }
        }
        long sum = 0;
        for (int n = 0; n < 400; n++) {
            sum = sum * 3 + (find("n" + n % 150, true).value += n);
        }
        System.out.println(count + " " + sum + " " + find("n7", false).value + " " + (find("n150", false) == null) + (find("BBBB", false) == find("AaBB", false)));
        for (int n = 0; n < 150; n++) {
            int at = row(("n" + n).hashCode());
            rows[at] = without(rows[at], find("n" + n, false));
        }
        System.out.println(count + " in " + rows.length + " rows:");
        for (int at = 0; at < rows.length; at++) {
            for (Main entry = rows[at]; entry != null; entry = entry.next) {
                System.out.print(at + " " + entry.word + " " + entry.value + (entry.next == null ? "\n" : ", "));
            }
        }
    }
}
