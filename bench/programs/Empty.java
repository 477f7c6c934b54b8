/** Nothing: what the start alone costs. */
public class Empty {
    public static void main(String[] arguments) {
    }
}
