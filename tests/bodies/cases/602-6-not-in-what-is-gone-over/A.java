class A {
    void m() {
        for (int[] a : a) {
            m();
        }
    }
}
