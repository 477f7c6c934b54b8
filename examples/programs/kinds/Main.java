/** What an object is an instance of, and what it can be cast to or stored in: strings, objects of this class, and arrays of all of these. */
public class Main implements Runnable {
    int runs;

    public void run() {
        runs++;
    }

    static String kinds(Object o) {
        boolean[] is = {o instanceof Object, o instanceof Main, o instanceof Runnable, o instanceof String, o instanceof Object[], o instanceof Main[],
            o instanceof Runnable[], o instanceof String[], o instanceof int[], o instanceof long[], o instanceof byte[], o instanceof boolean[],
            o instanceof char[], o instanceof short[], o instanceof Object[][], o instanceof int[][], o instanceof Main[][], o instanceof Throwable,
            o instanceof RuntimeException, o instanceof Error};
        String row = "";
        for (boolean one : is) {
            row += one ? '1' : '.';
        }
        return row;
    }

    static String cast(Object o, int kind) {
        try {
            switch (kind) {
                case 0: return "length " + ((int[]) o).length;
                case 1: return "length " + ((Object[]) o).length;
                case 2: return "length " + ((Runnable[]) o).length;
                case 3: return "length " + ((String) o).length();
                case 4: ((Runnable) o).run(); return "runs " + ((Main) o).runs;
                default: return "row " + ((int[][]) o)[1].length;
            }
        } catch (ClassCastException e) {
            return "cast";
        } catch (NullPointerException e) {
            return "null";
        }
    }

    static String stored(Object[] into, Object o) {
        try {
            into[into.length - 1] = o;
            return into[0] == o ? "same" : "other";
        } catch (ArrayStoreException e) {
            return "store";
        } catch (ArrayIndexOutOfBoundsException e) {
            return "index";
        }
    }

    public static void main(String[] args) {
        Object[] all = {null, "text", new Main(), new Object(), new Object[2], new Main[3], new Runnable[1], new String[0], new int[4], new long[1], new byte[1],
            new boolean[1], new char[1], new short[1], new Object[1][], new int[2][5], new Main[1][1], new IllegalStateException(), new StackOverflowError(), args};
        for (Object o : all) {
            String row = kinds(o);
            for (int kind = 0; kind < 6; kind++) {
                row += " " + cast(o, kind);
            }
            System.out.println(row);
        }
        Object[][] targets = {new Object[2], new String[1], new Main[1], new Runnable[1], new Object[1][], new int[1][], new Main[0], new Object[1][1]};
        for (Object[] target : targets) {
            String row = "";
            for (Object o : all) {
                row += stored(target, o) + " ";
            }
            System.out.println(row);
        }
        Object self = all[4];
        System.out.println(self.equals(all[4]) + " " + self.equals(all[3]) + " " + "text".equals(all[1]) + " " + all[2].equals(null));
    }
}
