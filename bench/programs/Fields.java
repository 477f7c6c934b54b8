/** Fields: a ring of objects, gone round again and again. */
public class Fields {
    int value;
    Fields next;

    public static void main(String[] arguments) {
        Fields first = new Fields();
        Fields last = first;
        for (int number = 1; number < 50; number++) {
            Fields made = new Fields();
            made.value = number;
            last.next = made;
            last = made;
        }
        last.next = first;
        Fields here = first;
        int sum = 0;
        for (int turn = 0; turn < 2_000_000; turn++) {
            here.value += turn;
            sum ^= here.value;
            here = here.next;
        }
        System.out.println(sum);
    }
}
