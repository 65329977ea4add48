final class Node {
    int item;
    Node next;
}

class Lists {
    static int appended;

    static Node append(Node first, Node second) {
        if (first == null) {
            return second;
        }
        Node last = first;
        while (last.next != null) {
            last = last.next;
        }
        last.next = second;
        appended = appended + 1;
        return first;
    }

    static int sum(int[] items, int from) {
        int sum = 0;
        for (int n = from; n < items.length; n++) {
            sum += items[n];
        }
        return sum;
    }
}
