/**
 * What `javac --release 8 -g:none` makes of this stands beside it. Five further class files are made of those by hand: `Alias.class` is
 * `Base.class`, and `Cut.class` its first five bytes. `Late.class`, `Loop.class` and `Over.class` are `Leaf.class` under their own names, with
 * another text in a constant: `Late` asks for a field `THIRD` and a method `tall` in the place of `FIRST` and `wide`, `Loop` inherits from
 * itself, and `Over` has `Role` as its superclass.
 */
class Leaf extends Base implements Role {
    long sum() {
        return own + FIRST + rank() + wide();
    }

    static Object grid(Role role) {
        return new int[role.rank()][1000000];
    }
}

class Base {
    protected int own;

    static long wide() {
        return 1099511627776L;
    }
}

interface Role {
    int FIRST = Integer.parseInt("1");

    default int rank() {
        return FIRST;
    }
}
