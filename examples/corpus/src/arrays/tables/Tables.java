/** Loops over arrays of any length that are not null. */
class Tables {
    //@ T insertionSort
    static void insertionSort(int[] items) {
        for (int n = 1; n < items.length; n++) {
            int item = items[n], hole = n - 1;
            while (hole >= 0 && items[hole] > item) {
                items[hole + 1] = items[hole];
                hole--;
            }
            items[hole + 1] = item;
        }
    }

    //@ T sortUntilSorted | ends since the order gets better
    static void sortUntilSorted(int[] items) {
        boolean swapped;
        do {
            swapped = false;
            for (int n = 1; n < items.length; n++) {
                if (items[n - 1] > items[n]) {
                    int item = items[n];
                    items[n] = items[n - 1];
                    items[n - 1] = item;
                    swapped = true;
                }
            }
        } while (swapped);
    }

    //@ T find
    static int find(int[] items, int wanted) {
        int low = 0, high = items.length - 1;
        while (low <= high) {
            int middle = (low + high) / 2;
            if (items[middle] == wanted) {
                return middle;
            }
            if (items[middle] < wanted) {
                low = middle + 1;
            } else {
                high = middle - 1;
            }
        }
        return -1;
    }

    //@ T untilTheEnd | the array's end is told by an exception
    static int untilTheEnd(int[] items) {
        int n = 0, sum = 0;
        try {
            while (true) {
                sum += items[n++];
            }
        } catch (ArrayIndexOutOfBoundsException end) {
            return sum;
        }
    }

    //@ N pastTheEnd | the handler goes on behind the end
    static int pastTheEnd(int[] items) {
        int n = 0, sum = 0;
        while (true) {
            try {
                if (items[n] == 7) {
                    return sum;
                }
                sum += items[n];
            } catch (ArrayIndexOutOfBoundsException end) {
                sum = 0;
            }
            n++;
        }
    }
}
