package change;

/** A class over the two. */
public class Twofold implements First, Second {}
