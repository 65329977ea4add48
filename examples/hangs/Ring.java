/** A list of which the last node is sought when it has none any more. */
class Ring {
    Ring next;

    static Ring last(Ring list) {
        list.next = list;
        Ring last = list;
        while (last.next != null) {
            last = last.next;
        }
        return last;
    }
}
