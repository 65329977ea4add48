class Ranked implements Comparable<Ranked> {
    int rank;

    public int compareTo(Ranked other) {
        return rank - other.rank;
    }
}
