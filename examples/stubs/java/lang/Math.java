package java.lang;

/** The int part of the real class, method by method. What isn't here is refused where it is called. */
public final class Math {
    private Math() {
    }

    public static int abs(int a) {
        return a < 0 ? -a : a;
    }

    public static int max(int a, int b) {
        return a >= b ? a : b;
    }

    public static int min(int a, int b) {
        return a <= b ? a : b;
    }

    public static int floorDiv(int x, int y) {
        int quotient = x / y;
        if ((x ^ y) < 0 && quotient * y != x) {
            quotient--;
        }
        return quotient;
    }

    public static int floorMod(int x, int y) {
        return x - floorDiv(x, y) * y;
    }
}
