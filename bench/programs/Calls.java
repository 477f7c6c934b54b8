/** Static calls and returns: a recursion with two calls in each. */
public class Calls {
    static int ways(int steps) {
        return steps < 3 ? steps : ways(steps - 1) + ways(steps - 2);
    }

    public static void main(String[] arguments) {
        System.out.println(ways(28));
        System.out.println(ways(29));
    }
}
