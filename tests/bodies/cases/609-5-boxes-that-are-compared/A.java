class A {
    boolean m(Integer i, Long l, int n) {
        boolean b = i == n && l == n && i < l && l == 'c';
        return i == l;
    }
}
