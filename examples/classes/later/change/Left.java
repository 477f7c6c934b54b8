package change;

/** The later form: a field and a method that the superclass of `Both` declares, too. */
public interface Left {
    int LEFT = Integer.parseInt("1");
    int value = Integer.parseInt("3");

    default int asked() {
        return 3;
    }
}
