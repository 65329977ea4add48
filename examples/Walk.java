class Walk {
    Walk next;

    static void f(Walk walk) {
        while (walk != null) {
            walk = walk.next;
        }
    }
}
