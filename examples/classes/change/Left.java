package change;

/** An interface that later declares what the superclass of `Both` declares too. */
public interface Left {
    int LEFT = Integer.parseInt("1");
}
