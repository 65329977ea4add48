class Chunks {
    /** In how many pieces of at most 64 bytes a message is sent. */
    static int count(int bytes) {
        int count = 0;
        while (bytes > 0) {
            bytes -= Math.min(bytes, 64);
            count++;
        }
        return count;
    }
}
