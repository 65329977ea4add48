class Total {
    static int total(int first, int second, int third) {
        int sum = first + second;
        return sum + third;
    }
}
