package generic;

/** An order of texts, and one of arrays: bridges that cast to a class and to an array class. */
public class ByLength implements Order<String> {
    @Override
    public int compare(String one, String other) {
        return one.length() - other.length();
    }

    static class OfArrays implements Order<int[]> {
        @Override
        public int compare(int[] one, int[] other) {
            return one.length - other.length;
        }
    }

    static String longest(String[] texts) {
        String found = "";
        for (String text : texts) {
            found = Order.larger(new ByLength().reversed().reversed(), found, text);
        }
        return found;
    }

    static int longest(int[][] rows) {
        return Order.larger(new OfArrays(), rows[0], rows[1]).length;
    }
}
