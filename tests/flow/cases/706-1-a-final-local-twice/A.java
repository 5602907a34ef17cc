class A {
    void m(boolean b) {
        final int x;
        if (b) x = 1;
        x = 2;
    }
}
