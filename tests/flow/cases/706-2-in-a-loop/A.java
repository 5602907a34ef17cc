class A {
    void m(boolean b) {
        final int x;
        while (b) {
            x = 1;
        }
    }
}
