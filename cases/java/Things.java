/** Objects that are made, and their fields. */
abstract class Things {
    int number;
    Things other;

    static void made() {
        new Object();
    }

    static void put(Things a) {
        a.number = 0;
    }

    static void got(Things a) {
        Things b = a.other;
    }

    static void called(Things a) {
        a.later();
    }

    static void thrownAnew() {
        throw new IllegalStateException();
    }

    abstract void later();
}
