class A {
    void m(int[] a) {
        a[0] = a.length;
        a.length = 1;
    }
}
