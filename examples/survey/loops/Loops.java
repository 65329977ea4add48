class Loops {
    static int below(int last) {
        int n = 0;
        while (n < last) {
            n++;
        }
        return n;
    }
    static int upTo(int last) {
        int n = 0;
        while (n <= last) {
            n++;
        }
        return n;
    }
    static long sum(long[] items) {
        long sum = 0;
        for (int n = 0; n < items.length; n++) {
            sum += items[n];
        }
        return sum;
    }
}
