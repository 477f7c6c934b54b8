import java.io.BufferedReader;
import java.io.ByteArrayOutputStream;
import java.io.InputStreamReader;
import java.io.PrintStream;
import java.lang.invoke.MethodType;
import java.lang.reflect.InvocationTargetException;
import java.util.ArrayList;
import java.util.List;
import java.util.StringJoiner;

/**
 * Does what each row of standard input says on the machine at hand, and tells what it leaves: values, and methods that are called with all
 * values so far. tools/natives makes the rows.
 */
public final class Natives {
    private static final String WORDS_BEHIND_A_LETTER = "IJT";

    private final List<Object> values = new ArrayList<>();
    private final ByteArrayOutputStream printed = new ByteArrayOutputStream();
    private final PrintStream stream = new PrintStream(printed, true, "UTF-8");

    private Natives() throws Exception {
    }

    private static Object value(String part) {
        if (part.equals("null")) {
            return null;
        }
        if (part.equals("object")) {
            return new Object();
        }
        String rest = part.substring(1);
        switch (WORDS_BEHIND_A_LETTER.indexOf(part.charAt(0))) {
            case 0:
                return Integer.valueOf(rest);
            case 1:
                return Long.valueOf(rest);
            default:
                StringBuilder text = new StringBuilder();
                for (String unit : rest.isEmpty() ? new String[0] : rest.split(",")) {
                    text.append((char) Integer.parseInt(unit));
                }
                return text.toString();
        }
    }

    /** A value as an argument of this type: an int stands for a char and a boolean too. */
    private static Object as(Class<?> type, Object value) {
        if (type == char.class) {
            return (char) (int) (Integer) value;
        }
        return type == boolean.class ? (Object) ((Integer) value != 0) : value;
    }

    private Object receiver(Class<?> type) {
        return type == PrintStream.class ? stream : values.get(0);
    }

    private void call(String part) throws Exception {
        int colon = part.indexOf(':');
        int dot = part.lastIndexOf('.', colon);
        Class<?> type = Class.forName(part.substring(0, dot).replace('/', '.'));
        String name = part.substring(dot + 1, colon);
        MethodType kinds = MethodType.fromMethodDescriptorString(part.substring(colon + 1), Natives.class.getClassLoader());
        Object[] arguments = new Object[kinds.parameterCount()];
        int first = values.size() - arguments.length;
        for (int i = 0; i < arguments.length; i++) {
            arguments[i] = as(kinds.parameterType(i), values.get(first + i));
        }
        Object answer;
        if (name.equals("<init>")) {
            answer = type.getConstructor(kinds.parameterArray()).newInstance(arguments);
        } else {
            answer = type.getMethod(name, kinds.parameterArray()).invoke(first > 0 ? receiver(type) : null, arguments);
        }
        values.clear();
        if (name.equals("<init>") || kinds.returnType() != void.class) {
            values.add(answer);
        }
    }

    private static String told(Object value) {
        if (value instanceof Integer) {
            return "I" + value;
        }
        if (value instanceof Long) {
            return "J" + value;
        }
        if (value instanceof Character) {
            return "I" + (int) (Character) value;
        }
        if (value instanceof Boolean) {
            return (Boolean) value ? "I1" : "I0";
        }
        if (value instanceof String) {
            StringJoiner units = new StringJoiner(",", "T", "");
            ((String) value).chars().forEach(unit -> units.add(String.valueOf(unit)));
            return units.toString();
        }
        return value == null ? "null" : "object";
    }

    private String left(String row) throws Exception {
        for (String part : row.split(" ")) {
            if (part.indexOf(':') < 0) {
                values.add(value(part));
                continue;
            }
            try {
                call(part);
            } catch (InvocationTargetException thrown) {
                return "Throw(" + thrown.getCause().getClass().getSimpleName() + ")";
            }
        }
        stream.close(); // until then it keeps back a high surrogate, in case its partner follows
        StringJoiner bytes = new StringJoiner(",", "O", "");
        for (byte one : printed.toByteArray()) {
            bytes.add(String.valueOf(one & 0xFF));
        }
        StringBuilder told = new StringBuilder();
        values.forEach(value -> told.append(told(value)).append(' '));
        return told.append(bytes).toString();
    }

    public static void main(String[] args) throws Exception {
        BufferedReader rows = new BufferedReader(new InputStreamReader(System.in));
        for (String row = rows.readLine(); row != null; row = rows.readLine()) {
            System.out.println(new Natives().left(row));
        }
    }
}
