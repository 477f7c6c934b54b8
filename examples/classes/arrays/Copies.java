package arrays;

/** Copies of arrays, by a method that an array class has and `Object` lacks here. */
public class Copies {
    static int[] copy(int[] ints) {
        return ints.clone();
    }

    static Copies[][] copy(Copies[][] copies) {
        return copies.clone();
    }
}
