/** Want of memory is thrown and can be caught: arrays that no heap has room for, and a chain of arrays that grows until there is no room. */
public class Main {
    Main next;
    long[] load;

    /** An object of the chain: its array begins and ends with marks that are found again. */
    Main(Main next, int size) {
        this.next = next;
        load = new long[size];
        load[0] = size;
        load[size - 1] = -size;
    }

    static boolean isSound(Main chain) {
        for (; chain != null; chain = chain.next) {
            int size = chain.load.length;
            if (chain.load[0] != size || chain.load[size - 1] != -size || chain.load[size / 2] != 0) {
                return false;
            }
        }
        return true;
    }

    static Object great(int kind) {
        int most = Integer.MAX_VALUE;
        switch (kind) {
            case 0: return new boolean[most];
            case 1: return new int[most];
            case 2: return new long[most];
            case 3: return new String[most];
            case 4: return new char[3][most];
            default: return new byte[kind];
        }
    }

    /** Fills the heap with a chain, whose objects are given up before anything is printed. */
    static boolean fill(int size) {
        Main chain = null;
        try {
            while (true) {
                chain = new Main(chain, size);
            }
        } catch (OutOfMemoryError e) {
            return isSound(chain);
        }
    }

    public static void main(String[] args) {
        String refused = " refused", made = " made";
        int[] kept = new int[100];
        for (int kind = 0; kind < 6; kind++) {
            System.out.print(kind);
            try {
                great(kind);
                System.out.println(made);
            } catch (OutOfMemoryError e) {
                System.out.println(refused);
            }
        }
        // from here on nothing is made but what fills the heap
        for (int size = 5000; size > 1; size /= 4) {
            System.out.print(size);
            System.out.print(' ');
            System.out.println(fill(size));
            kept[size % 100] += size;
        }
        for (int item : kept) {
            System.out.print(item);
        }
        System.out.println(refused);
    }
}
