package nested;

/** A class in an interface in a class, and a recursion over them. */
public final class Tree {
    private Node root = Node.EMPTY;

    interface Node {
        Node EMPTY = new Empty();

        Node with(int key);

        int depth();

        final class Empty implements Node {
            @Override
            public Node with(int key) {
                return new Full(EMPTY, key, this);
            }

            @Override
            public int depth() {
                return 0;
            }
        }
    }

    private static final class Full implements Node {
        final Node less;
        final int key;
        final Node more;

        Full(Node less, int key, Node more) {
            this.less = less;
            this.key = key;
            this.more = more;
        }

        @Override
        public Node with(int other) {
            if (other < key) {
                return new Full(less.with(other), key, more);
            }
            return new Full(less, key, more.with(other));
        }

        @Override
        public int depth() {
            int one = less.depth();
            int other = more.depth();
            return 1 + (one > other ? one : other);
        }
    }

    public int put(int key) {
        root = root.with(key);
        return root.depth();
    }
}
