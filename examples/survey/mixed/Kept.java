class Kept {
    static int half(int n) {
        return n / 2;
    }

    static int parity(int n) {
        return n == 0 ? 0 : 1 - parity(n - 1);
    }

    int hash() {
        return hashCode();
    }

    static native int outside();
}
