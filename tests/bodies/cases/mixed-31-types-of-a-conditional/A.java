class A {
    void m(boolean b, Integer i, String s) {
        Comparable<? extends Comparable<?>> c = b ? i : s;
        Object o = b ? i : s;
    }
}
