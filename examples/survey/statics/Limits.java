class Limits {
    static final int MOST = 100;
}
