package nested;

/** Member classes, inner ones and static ones, three deep, that read private members of the classes around them. */
public class Outer {
    private int secret = 1;
    private static int shared = 2;

    private int grow(int by) {
        secret += by;
        return secret;
    }

    public class Inner {
        private int own = secret;

        public class Deeper {
            int all() {
                own++;
                return grow(own) + secret + shared;
            }
        }

        Deeper deeper() {
            return new Deeper();
        }
    }

    private static class Hidden {
        private final int value;

        private Hidden(int value) {
            this.value = value;
            shared += value;
        }
    }

    protected static class Shown extends Outer {
        int both() {
            return super.secret + new Hidden(3).value;
        }
    }

    public int all() {
        return new Inner().deeper().all() + new Shown().both() + new Inner().own;
    }
}
