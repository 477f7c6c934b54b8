/** A method over doubles, which the profile leaves out. */
public class Fractions {
    static double half(double x) {
        return x / 2;
    }
}
