package change;

/** The later form: it inherits from `One`. */
public class Other extends One {}
