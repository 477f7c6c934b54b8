package change;

/** The middle of the three. */
public class Between extends Upper {}
