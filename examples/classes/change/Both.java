package change;

/** A class over the two. */
public class Both extends Right implements Left {}
