/** Virtual calls: a method that reads a field and one that writes it, on two objects in turn. */
public class Virtual {
    private int kept;

    int get() {
        return kept;
    }

    void add(int more) {
        kept += more;
    }

    public static void main(String[] arguments) {
        Virtual left = new Virtual();
        Virtual right = new Virtual();
        for (int turn = 0; turn < 1_000_000; turn++) {
            left.add(turn);
            right.add(left.get());
        }
        System.out.println(left.get());
        System.out.println(right.get());
    }
}
