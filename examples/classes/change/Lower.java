package change;

/** The lower of the three. */
public class Lower extends Between {}
