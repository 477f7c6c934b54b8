import java.io.BufferedReader;
import java.io.InputStreamReader;
import java.lang.reflect.InvocationTargetException;
import java.lang.reflect.Method;
import java.util.ArrayList;
import java.util.Collections;
import java.util.List;

/**
 * Runs the instruction of each row of standard input on the machine at hand, by a method of its name of the class Rows, and tells what it
 * leaves in the place of its operands, the lowest first. tools/instructions makes that class, and the rows.
 */
public final class Instructions {
    private static final List<String> told = new ArrayList<>();

    public static void tell(int value) {
        told.add("I" + value);
    }

    public static void tell(long value) {
        told.add("J" + value);
    }

    private static String left(String[] words) throws Exception {
        Class<?>[] kinds = new Class<?>[words.length - 1];
        Object[] operands = new Object[words.length - 1];
        for (int i = 1; i < words.length; i++) {
            boolean isInt = words[i].charAt(0) == 'I';
            kinds[i - 1] = isInt ? int.class : long.class;
            operands[i - 1] = isInt ? (Object) Integer.valueOf(words[i].substring(1)) : (Object) Long.valueOf(words[i].substring(1));
        }
        Method method = Class.forName("Rows").getMethod(words[0], kinds);
        told.clear();
        try {
            method.invoke(null, operands);
        } catch (InvocationTargetException thrown) {
            return thrown.getCause().getClass().getName().replace('.', '/');
        }
        Collections.reverse(told);
        return String.join(" ", told);
    }

    public static void main(String[] args) throws Exception {
        BufferedReader rows = new BufferedReader(new InputStreamReader(System.in));
        for (String row = rows.readLine(); row != null; row = rows.readLine()) {
            System.out.println(left(row.split(" ")));
        }
    }
}
