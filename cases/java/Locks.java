/** Locks as javac takes and gives them back. */
class Locks {
    Object inner;
    int count;

    static void once(Object a) {
        synchronized (a) {
        }
    }

    static void nested(Object a, Object b) {
        synchronized (a) {
            synchronized (b) {
            }
        }
    }

    static void again(Object a, int n) {
        do {
            n++;
            synchronized (a) {
            }
        } while (n != 0);
    }

    void counted() {
        synchronized (inner) {
            count++;
        }
    }

    synchronized void whole() {
    }

    static void kept(Object a, int n) {
        if (n == 0) {
            synchronized (a) {
                return;
            }
        }
    }

    native void elsewhere();
}
