// A depot's belt: locks that branches, loops and throws are under. cases/woven has what a weaver made of it.
class Depot {
    private final Object belt = new Object();
    private int sorted;
    private int late;

    void sort(int parcel) {
        Object lock = belt;
        synchronized (lock) {
            if (parcel > 100) {
                late++;
                return;
            }
            sorted++;
        }
    }

    int both() {
        synchronized (this) {
            synchronized (belt) {
                return sorted + late;
            }
        }
    }

    void turns(int count) {
        for (int i = 0; i < count; i++) {
            synchronized (belt) {
                sorted--;
            }
        }
    }

    void again(int count) {
        synchronized (this) {
            synchronized (this) {
                while (sorted < count) {
                    sorted += count;
                }
            }
        }
    }

    static void check(int parcel) {
        synchronized (Depot.class) {
            if (parcel < 0) {
                throw new IllegalArgumentException();
            }
        }
    }
}
