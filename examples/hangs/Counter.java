/** An iterator that doesn't advance. */
class Counter {
    private int at;
    private int end;

    Counter(int end) {
        this.end = end;
    }

    boolean hasNext() {
        return at < end;
    }

    int next() {
        return at;
    }

    static int sum(int n) {
        int sum = 0;
        Counter counter = new Counter(n);
        while (counter.hasNext()) {
            sum += counter.next();
        }
        return sum;
    }
}
