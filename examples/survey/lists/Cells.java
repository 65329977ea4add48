class Cells {
    static int length(Cell first) {
        int count = 0;
        for (Cell cell = first; cell != null; cell = cell.next) {
            count++;
        }
        return count;
    }

    static Cell made(int count) {
        Cell first = null;
        for (int n = 0; n < count; n++) {
            Cell cell = new Cell();
            cell.next = first;
            first = cell;
        }
        return first;
    }
}
