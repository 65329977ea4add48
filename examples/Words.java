class Words {
    /** How many words there are, with one blank between two of them. */
    static int count(String line) {
        int words = 0;
        for (int at = 0; at < line.length(); at++) {
            if (line.charAt(at) == ' ') {
                words++;
            }
        }
        return words + 1;
    }
}
