import java.lang.reflect.InvocationTargetException;
import java.lang.reflect.Method;
import java.util.ArrayList;
import java.util.List;

/**
 * Runs methods of Taken, and prints what their probes see: one line a probe,
 * with its number, the variables, the stack from its bottom, and the objects
 * that the thread holds.
 *
 * Objects are numbered as they come up. What the machine itself throws, a
 * NullPointerException, is number 0.
 */
class Probe {
    /** Ends a method that runs too long. No handler covers a probe. */
    static class Enough extends RuntimeException {
    }

    static class Thing {
    }

    static class Thrown extends RuntimeException {
    }

    static final int MOST = 60;

    static List<Object> objects;
    static StringBuilder line;
    static int probes;

    static void at(int number) {
        if (++probes > MOST) {
            throw new Enough();
        }
        line = new StringBuilder("at ").append(number);
    }

    static void integer(int value) {
        line.append(" i").append(value);
    }

    static void reference(Object value) {
        line.append(value == null ? " null" : " r" + number(value));
    }

    static void bar() {
        line.append(" |");
    }

    static void end() {
        line.append(" |");
        for (int i = 0; i < objects.size(); i++) {
            if (objects.get(i) != null && Thread.holdsLock(objects.get(i))) {
                line.append(" r").append(i);
            }
        }
        System.out.println(line);
    }

    static int number(Object value) {
        if (value instanceof NullPointerException) {
            return 0;
        }
        for (int i = 0; i < objects.size(); i++) {
            if (objects.get(i) == value) {
                return i;
            }
        }
        objects.add(value);
        return objects.size() - 1;
    }

    /** An argument: an integer, null, a thing, or what can be thrown. */
    static Object argument(String word) {
        Object made;
        switch (word) {
            case "null":
                return null;
            case "thing":
                made = new Thing();
                break;
            case "thrown":
                made = new Thrown();
                break;
            default:
                return Integer.valueOf(word);
        }
        number(made);
        return made;
    }

    /** Each word is the arguments of a method, joined by commas. */
    public static void main(String[] words) throws Exception {
        for (int i = 0; i < words.length; i++) {
            objects = new ArrayList<>();
            objects.add(null);
            probes = 0;
            List<Object> arguments = new ArrayList<>();
            for (String word : words[i].split(",")) {
                arguments.add(argument(word));
            }
            run(i, arguments.toArray());
        }
    }

    static void run(int number, Object[] arguments) throws Exception {
        for (Method method : Class.forName("Taken").getDeclaredMethods()) {
            if (method.getName().equals("m" + number)) {
                try {
                    method.invoke(null, arguments);
                    System.out.println("returned");
                } catch (InvocationTargetException e) {
                    // What leaves a method that holds a lock is no Enough any more.
                    System.out.println(probes > MOST ? "enough" : "uncaught");
                }
            }
        }
    }
}
