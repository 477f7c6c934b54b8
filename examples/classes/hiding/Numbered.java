package hiding;

/** Fields of a superinterface's superinterface. */
public interface Numbered {
    int FIRST = Integer.parseInt("1");
    int[] ALL = {FIRST, 2, 3};
}
