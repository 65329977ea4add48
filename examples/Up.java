class Up {
    static int count(int last) {
        int n = 0;
        while (n <= last) {
            n++;
        }
        return n;
    }
}
