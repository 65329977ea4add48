class Bounded {
    static int count;

    static int most() {
        return Limits.MOST;
    }

    static int counted() {
        count = count + 1;
        return count;
    }
}
