class Table {
    static final int[] SQUARES = {0, 1, 4, 9};

    static int square(int n) {
        return SQUARES[n];
    }
}
