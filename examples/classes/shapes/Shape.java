package shapes;

/** An interface with abstract, default and static methods, and fields: two constants, and one that its initialisation sets. */
public interface Shape {
    int PLANE = 2;
    String NAME = "shape";
    int COUNT = Integer.parseInt("3");

    int area();

    Shape grown();

    default String describe() {
        return NAME;
    }

    static boolean isLarger(Shape one, Shape other) {
        return one.area() > other.area() && one.equals(other) == false;
    }
}
