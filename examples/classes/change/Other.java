package change;

/** The other of the two. */
public class Other {}
