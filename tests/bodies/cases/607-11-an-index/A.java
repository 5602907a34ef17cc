class A {
    int m(int[] a, long i) {
        return a[i];
    }
}
