/** String constants with all lengths of modified UTF-8: one, two, three and twice three bytes, and the unit 0. */
public class Texts {
    static final String PLAIN = "plain";
    static final String ZERO = "a\0b";
    static final String TWO = "\u00e9\u07ff";
    static final String THREE = "\u20ac\uffff";
    static final String PAIR = "\ud83d\ude00";
    static final String LONE = "\ud800";

    public static void main(String[] words) {
        String all = PLAIN + ZERO + TWO + THREE + PAIR + LONE + words.length;
        System.out.println(all.length());
    }
}
