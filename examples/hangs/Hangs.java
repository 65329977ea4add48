/** Small methods that never end from the inputs that their descriptions fit. */
class Hangs {
    static boolean stop;

    /** The value of i++ is the old one, and it is assigned last. */
    static int assigned(int n) {
        int i = 0;
        while (i < n) {
            i = i++;
        }
        return i;
    }

    /** No int is above the greatest one. */
    static int toTheEnd(int first) {
        int count = 0;
        for (int i = first; i <= Integer.MAX_VALUE; i++) {
            count++;
        }
        return count;
    }

    /** A char is never below 0. */
    static int chars(int first) {
        int count = 0;
        for (char c = (char) first; c >= 0; c--) {
            count++;
        }
        return count;
    }

    /** Nobody sets the field. */
    static void waiting() {
        while (!stop) {
        }
    }

    /** The exception that says why is swallowed, and the same is tried again. */
    static int share(int parts) {
        while (true) {
            try {
                return 100 / parts;
            } catch (ArithmeticException e) {
            }
        }
    }

    /** The mask keeps the sign out. */
    static int masked(int i) {
        while (i >= 0) {
            i = (i + 1) & 0x7fffffff;
        }
        return i;
    }

    /** From 0 or below, halving never comes to 1. */
    static int halvings(int n) {
        int count = 0;
        while (n != 1) {
            n /= 2;
            count++;
        }
        return count;
    }

    /** The least int has no positive counterpart. */
    static int positive(int n) {
        while (n < 0) {
            n = size(n);
        }
        return n;
    }

    private static int size(int n) {
        return n < 0 ? -n : n;
    }
}
