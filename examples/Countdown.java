class Countdown {
    static int run(int n) {
        while (n > 0) {
            n--;
        }
        return n;
    }
}
