class Handlers {
    static int first(int[] items) {
        try {
            return items[0];
        } catch (ArrayIndexOutOfBoundsException e) {
            return 0;
        }
    }

    static int cleared(int[] items) {
        try {
            return items[0];
        } finally {
            items = null;
        }
    }

    static boolean isSame(int[] one, int[] other) {
        RuntimeException first = null;
        try {
            one[0] = 1;
        } catch (RuntimeException e) {
            first = e;
        }
        try {
            other[0] = 1;
        } catch (RuntimeException e) {
            return e == first;
        }
        return false;
    }

    static int tried(int[] items, int n) {
        while (true) {
            try {
                return items[n];
            } catch (NullPointerException e) {
                n++;
            }
        }
    }
}
