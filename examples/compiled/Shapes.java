import java.lang.annotation.Retention;
import java.lang.annotation.RetentionPolicy;
import java.util.Comparator;

/** Interfaces, nested, inner, local and anonymous classes, type parameters and annotations. */
public abstract class Shapes<T extends Comparable<T>> implements Comparator<T> {
    @Retention(RetentionPolicy.RUNTIME)
    @interface Note {
        String value() default "none";

        int[] numbers() default {1, 2};
    }

    interface Area {
        int SIDE = Integer.parseInt("4");

        int area(int side);
    }

    static final class Square implements Area {
        public int area(int side) {
            return side * side;
        }
    }

    class Inner {
        T kept;

        @Note("kept")
        T kept() {
            return kept;
        }
    }

    protected transient volatile int[][] grid;

    @Deprecated
    public abstract int size();

    native int outside(long handle);

    public int compare(T one, T other) {
        return one.compareTo(other);
    }

    public static void main(String[] words) {
        class Local implements Area {
            public int area(int side) {
                return side + words.length;
            }
        }
        Area[] areas = {new Square(), new Local(), new Area() {
            public int area(int side) {
                assert side > 0;
                return 2 * side;
            }
        }};
        int sum = 0;
        for (Area area : areas) {
            sum += area.area(Area.SIDE);
        }
        System.out.println(sum);
    }
}
