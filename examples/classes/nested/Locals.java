package nested;

import shapes.Circle;
import shapes.Shape;

/** Local and anonymous classes, which keep what they capture in fields; one over a class, one over an interface. */
public class Locals {
    private final String name = "locals";

    Shape unit(final int side, final long scale) {
        class Scaled implements Shape {
            @Override
            public int area() {
                return (int) (side * scale);
            }

            @Override
            public Shape grown() {
                return unit(side + 1, scale);
            }

            @Override
            public String describe() {
                return name;
            }
        }
        return new Scaled();
    }

    Circle loud() {
        return new Circle(1) {
            int asked;

            @Override
            public int area() {
                asked++;
                return super.area() + asked + radius();
            }
        };
    }

    static Runnable counted(final int[] counter) {
        return new Runnable() {
            @Override
            public void run() {
                counter[0]++;
            }
        };
    }

    int all() {
        int[] counter = new int[1];
        counted(counter).run();
        return counter[0] + loud().area() + unit(2, 3L).grown().area();
    }
}
