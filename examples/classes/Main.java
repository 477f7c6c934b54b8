import arrays.Copies;
import counters.Twice;
import counters.far.FarCounter;
import generic.TextBox;
import hiding.Leaf;
import shapes.Coin;
import shapes.Shape;

/** A class without a package, which uses public members of the others, many of them inherited. */
public class Main extends Outside {
    public static void main(String[] words) {
        Coin coin = new Coin();
        Shape shape = coin.grown();
        System.out.println(coin.describe());
        System.out.println(Shape.isLarger(coin, shape));
        System.out.println(new FarCounter().all() + new FarCounter().readAll() + new Twice().next());
        System.out.println(new TextBox("text").copy().get());
        System.out.println(new Leaf().sum() + Leaf.z + new Leaf().title().length());
        System.out.println(new Main().inside() + words.length);
        Object nothing = new Copies();
        System.out.println(nothing.equals(coin));
    }
}

/** Another class of the same file, without a package and not public. */
class Outside {
    protected int inside() {
        return 1;
    }
}
