class Cell {
    int item;
    Cell next;
}
