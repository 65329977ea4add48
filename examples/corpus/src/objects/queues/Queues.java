class Event {
    int kind;
    Event next;
}

class Tree {
    int key;
    Tree left, right;
}

class Timer {
    int left, waits;
}

/** Loops over lists, trees and fields. */
class Queues {
    static Event first;

    //@ T processed statics=tree?
    static int processed() {
        int count = 0;
        while (first != null) {
            Event event = first;
            first = event.next;
            count++;
        }
        return count;
    }

    //@ N eventful statics=tree? | an event of kind 1 makes another one
    static int eventful() {
        int count = 0;
        while (first != null) {
            Event event = first;
            first = event.next;
            if (event.kind == 1) {
                Event more = new Event();
                more.kind = 1;
                more.next = first;
                first = more;
            }
            count++;
        }
        return count;
    }

    //@ T metered 0..1000 statics=tree? | the same with a budget
    static int metered(int budget) {
        int count = 0;
        while (first != null && budget > 0) {
            Event event = first;
            first = event.next;
            if (event.kind == 1) {
                Event more = new Event();
                more.kind = 1;
                more.next = first;
                first = more;
            }
            count++;
            budget--;
        }
        return count;
    }

    //@ T insert
    static Tree insert(Tree tree, int key) {
        Tree made = new Tree();
        made.key = key;
        if (tree == null) {
            return made;
        }
        Tree at = tree;
        while (true) {
            if (key < at.key) {
                if (at.left == null) {
                    at.left = made;
                    return tree;
                }
                at = at.left;
            } else {
                if (at.right == null) {
                    at.right = made;
                    return tree;
                }
                at = at.right;
            }
        }
    }

    //@ T flatten | turns right until nothing is left of it
    static int flatten(Tree tree) {
        int count = 0;
        while (tree != null) {
            if (tree.left != null) {
                Tree left = tree.left;
                tree.left = left.right;
                left.right = tree;
                tree = left;
            } else {
                tree = tree.right;
                count++;
            }
        }
        return count;
    }

    //@ T bounded tree! | waits for somebody else, but not for ever
    static boolean bounded(Timer timer) {
        timer.waits = 0;
        while (timer.left > 0 && timer.waits < 100) {
            timer.waits++;
        }
        return timer.left <= 0;
    }

    //@ N both tree! tree! share=0-1 same=0-1 | the two may be one timer: down and up
    static void both(Timer one, Timer other) {
        while (one.left > 0 && other.left < 100) {
            one.left--;
            other.left++;
        }
    }
}
