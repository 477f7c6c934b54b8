/** Constants of every whole-number type, the long ones with two entries of the constant pool each. */
public class Numbers {
    static final boolean YES = true;
    static final byte BYTE = -128;
    static final char CHAR = '\uffff';
    static final short SHORT = 32767;
    static final int INT = Integer.MIN_VALUE;
    static final long LONG = 1234567890123456789L;
    final int own = 70000;

    static long mixed(int a, long b, byte c, char d, short e, boolean f) {
        long sum = a + b * 3L - c / 2 % 7;
        sum ^= (long) d << 3 | e >>> 1 & 0xff;
        return f ? -sum : ~sum >> 2;
    }

    public static void main(String[] words) {
        long[][] table = new long[3][4];
        table[1][2] = mixed(INT, LONG, BYTE, CHAR, SHORT, YES);
        int[] counts = {1, 2, 3};
        for (int i = 0; i < counts.length; i++) {
            counts[i] += i;
        }
        System.out.println(table[1][2] + counts[2]);
    }
}
