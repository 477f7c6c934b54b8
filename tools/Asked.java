import java.io.BufferedReader;
import java.io.InputStreamReader;
import java.lang.invoke.MethodHandles;
import java.lang.invoke.MethodHandles.Lookup;
import java.lang.invoke.MethodType;
import java.lang.reflect.Constructor;
import java.lang.reflect.InvocationTargetException;
import java.lang.reflect.Method;
import java.lang.reflect.Modifier;
import java.util.List;
import java.util.stream.Collectors;
import java.util.stream.Stream;

/**
 * What the JVM that runs it says of classes. Each line of standard input is a question, words with a space between, and each has a line
 * as its answer; names are spelled as in class files. An answer that begins with `!` is the class of what was thrown.
 *
 * <pre>
 * class NAME                          its superclass, or -, and its direct superinterfaces
 * linked NAME                         ok
 * type FROM NAME                      the class, resolved from the class FROM: its name
 * field FROM CLASS NAME DESC          the class that declares the field
 * method FROM CLASS NAME DESC         the class that declares the method; several, with | between, where any of them may be taken
 * interface FROM CLASS NAME DESC      the same, where the class has to be an interface
 * run NAME                            the class's static method `run` is called: ok
 * </pre>
 */
public class Asked {
    public static void main(String[] words) throws Exception {
        BufferedReader lines = new BufferedReader(new InputStreamReader(System.in, "UTF-8"));
        for (String line = lines.readLine(); line != null; line = lines.readLine()) {
            System.out.println(answer(line.split(" ")));
        }
    }

    static String answer(String[] words) {
        try {
            switch (words[0]) {
                case "class":
                    return supers(load(words[1]));
                case "linked":
                    // reflection links a class without its initialisation
                    load(words[1]).getDeclaredMethods();
                    return "ok";
                case "type":
                    return name(reach(of(words[1]), words[2]));
                case "field":
                    return name(field(of(words[1]), reach(of(words[1]), words[2]), words[3], words[4]));
                case "method":
                    return method(of(words[1]), expect(false, reach(of(words[1]), words[2])), words[3], words[4]);
                case "interface":
                    return method(of(words[1]), expect(true, reach(of(words[1]), words[2])), words[3], words[4]);
                default:
                    load(words[1]).getMethod("run").invoke(null);
                    return "ok";
            }
        } catch (InvocationTargetException thrown) {
            return "!" + name(thrown.getCause().getClass());
        } catch (Exception | LinkageError thrown) {
            return "!" + name(thrown.getClass());
        }
    }

    static String name(Class<?> type) {
        return type.getName().replace('.', '/');
    }

    static Class<?> load(String name) throws ClassNotFoundException {
        return Class.forName(name.replace('/', '.'), false, Asked.class.getClassLoader());
    }

    static String supers(Class<?> type) {
        StringBuilder told = new StringBuilder(type.getSuperclass() == null ? "-" : name(type.getSuperclass()));
        for (Class<?> each : type.getInterfaces()) {
            told.append(' ').append(name(each));
        }
        return told.toString();
    }

    /** The look-ups that a class itself may make. */
    static Lookup of(String from) throws Exception {
        return MethodHandles.privateLookupIn(load(from), MethodHandles.lookup());
    }

    static Class<?> reach(Lookup from, String name) throws Exception {
        return from.accessClass(load(name));
    }

    static Class<?> expect(boolean isInterface, Class<?> type) {
        if (type.isInterface() != isInterface) {
            throw new IncompatibleClassChangeError();
        }
        return type;
    }

    static Class<?> field(Lookup from, Class<?> type, String name, String desc) throws Exception {
        Class<?> of = MethodType.fromMethodDescriptorString("()" + desc, Asked.class.getClassLoader()).returnType();
        try {
            return from.revealDirect(from.findGetter(type, name, of)).getDeclaringClass();
        } catch (IllegalAccessException isStatic) {
            return from.revealDirect(from.findStaticGetter(type, name, of)).getDeclaringClass();
        }
    }

    static String method(Lookup from, Class<?> type, String name, String desc) throws Exception {
        MethodType of = MethodType.fromMethodDescriptorString(desc, Asked.class.getClassLoader());
        if (name.equals("<init>")) {
            return name(constructor(from, type, of));
        }
        Class<?> holder = holder(from, type, name, of);
        return isDeclared(holder, name, of) ? name(holder) : specific(type, name, of);
    }

    static Class<?> holder(Lookup from, Class<?> type, String name, MethodType of) throws Exception {
        try {
            return from.revealDirect(from.findVirtual(type, name, of)).getDeclaringClass();
        } catch (IllegalAccessException isStatic) {
            return from.revealDirect(from.findStatic(type, name, of)).getDeclaringClass();
        }
    }

    static boolean is(Method method, String name, MethodType of) {
        return method.getName().equals(name) && MethodType.methodType(method.getReturnType(), method.getParameterTypes()).equals(of);
    }

    static boolean isDeclared(Class<?> type, String name, MethodType of) {
        return Stream.of(type.getDeclaredMethods()).anyMatch(method -> is(method, name, of));
    }

    /**
     * Where a class has a method from an interface, a handle tells the class and not the interface. Reflection tells the most specific
     * methods: the one that is not abstract, or else all of them, with `|` between.
     */
    static String specific(Class<?> type, String name, MethodType of) {
        List<Method> all = Stream.of(type.getMethods()).filter(method -> is(method, name, of)).collect(Collectors.toList());
        List<Method> concrete = all.stream().filter(Method::isDefault).collect(Collectors.toList());
        List<Method> told = concrete.size() == 1 ? concrete : all;
        return told.stream().map(method -> name(method.getDeclaringClass())).sorted().collect(Collectors.joining("|"));
    }

    /** No handle is given for the protected constructor of a superclass in another package, which a constructor may call. */
    static Class<?> constructor(Lookup from, Class<?> type, MethodType of) throws Exception {
        Constructor<?> constructor = type.getDeclaredConstructor(of.parameterArray());
        if (!Modifier.isProtected(constructor.getModifiers()) || !type.isAssignableFrom(from.lookupClass())) {
            from.findConstructor(type, of);
        }
        return constructor.getDeclaringClass();
    }
}
