/** Values that are cut to the width of where they are kept: bytes, shorts, chars and booleans in fields, in arrays and in casts. */
public class Main {
    byte small;
    short little;
    char letter;
    boolean flag;
    static byte ownSmall = (byte) 200;
    static short ownLittle = (short) 40000;
    static char ownLetter = (char) -1;
    static boolean ownFlag;

    void add(int n) {
        small += n;
        little += n;
        letter += n;
        flag ^= n % 3 == 0;
        ownSmall -= n;
        ownLittle *= n;
        ownLetter >>>= n & 3;
        ownFlag |= flag & small < 0;
    }

    String told() {
        return small + " " + little + " " + (int) letter + " " + flag + "; " + ownSmall + " " + ownLittle + " " + (int) ownLetter + " " + ownFlag;
    }

    /** The sum of a text's bytes that Adler-32 makes, with bytes that have a sign on the way. */
    static long adler(byte[] bytes) {
        int low = 1, high = 0;
        for (byte one : bytes) {
            low = (low + (one & 0xFF)) % 65521;
            high = (high + low) % 65521;
        }
        return (high & 0xFFFFFFFFL) << 16 | low;
    }

    public static void main(String[] args) {
        Main object = new Main();
        int[] steps = {1, 127, 128, -129, 255, 256, 32767, 32768, 65535, 65536, -100000, Integer.MAX_VALUE, Integer.MIN_VALUE};
        for (int step : steps) {
            object.add(step);
            System.out.println(step + ": " + object.told());
            System.out.print((byte) step + " " + (short) step + " " + (int) (char) step + " ");
            System.out.println((byte) (char) step + " " + (int) (char) (byte) step + " " + (short) (step * 70000L));
        }
        byte[] bytes = new byte[300];
        short[] shorts = new short[300];
        char[] chars = new char[300];
        boolean[] flags = new boolean[300];
        for (int i = 0; i < 300; i++) {
            bytes[i] = (byte) (i * i);
            shorts[i] = (short) (i * i * i);
            chars[i] = (char) (shorts[i] - bytes[i]);
            flags[i] = bytes[i] > chars[i] % 100;
        }
        int sum = 0, count = 0;
        for (int i = 0; i < 300; i++) {
            sum = sum * 17 + bytes[i]-- + ++shorts[i] + (chars[i] += 3) + (chars[i] >> 1) + (bytes[i] >>> 1);
            count += flags[i] && !(flags[i] = false) ? 1 : 0;
            count += flags[i] ? 1000 : 0;
        }
        System.out.println(sum + " " + count + " " + adler(bytes));
        bytes[0] = Byte.MAX_VALUE;
        bytes[0]++;
        shorts[0] = Short.MIN_VALUE;
        shorts[0]--;
        chars[0] = 0;
        chars[0]--;
        bytes[1] >>>= 1;
        System.out.println(bytes[0] + " " + shorts[0] + " " + (int) chars[0] + " " + bytes[1] + " " + (chars[0] + chars[1]) + " " + flags[0]);
        char c = 'z';
        c++;
        System.out.println(c + 1);
        System.out.println((char) (c + 1));
        System.out.println(c);
    }
}
