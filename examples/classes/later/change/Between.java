package change;

/** The later form: it declares what the class above it declares, too. */
public class Between extends Upper {
    public static int value = 2;

    @Override
    public int asked() {
        return 2;
    }
}
