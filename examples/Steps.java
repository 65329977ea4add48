class Steps {
    /** How many steps it takes to go so far. */
    static int count(int distance, int step, String complaint) {
        if (step <= 0) {
            throw new IllegalArgumentException(complaint);
        }
        int steps = 0;
        while (distance > 0) {
            distance -= step;
            steps++;
        }
        return steps;
    }
}
