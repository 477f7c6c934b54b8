// Prints the numbers from 0 to 9, one a line.
public class Main {
    public static void main(String[] arguments) {
        for (int i = 0; i < 10; i++) {
            mvm.Sys.println(i);
        }
    }
}
