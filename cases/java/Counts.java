/** Loops, branches and throws over integers, most of which can be taken. */
class Counts {
    static void nothing() {
    }

    static void twice(int a) {
        a++;
        a++;
    }

    static void untilZero(int a) {
        do {
            a++;
        } while (a != 0);
    }

    static void either(int a, int b) {
        if (a == 0) {
            b++;
            return;
        }
        a++;
    }

    static void copies(int a, int b, int c, int d) {
        int e = d;
        d = 0;
        e = e;
    }

    static void whileZero(int a) {
        while (a == 0) {
            a++;
        }
    }

    static void byTwo(int a) {
        a++;
        a += 2;
    }

    static void byMinusOne(int a) {
        a--;
    }

    static int same(int a) {
        return a;
    }

    static void thrown(RuntimeException e) {
        throw e;
    }

    static void caught(RuntimeException e, int n) {
        try {
            throw e;
        } catch (RuntimeException x) {
            n++;
        }
    }

    static void caughtByEither(RuntimeException e, int n) {
        try {
            if (n == 0) {
                throw e;
            }
            n++;
        } catch (IllegalStateException x) {
            return;
        } catch (RuntimeException x) {
            n++;
        }
    }

    static void atLast(RuntimeException e, int n) {
        try {
            throw e;
        } finally {
            n++;
        }
    }
}
