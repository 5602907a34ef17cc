class A {
    void m(boolean b) {
        int x;
        if (b & (x = 1) > 0) { }
        int y;
        if (b && (y = 1) > 0) m(b);
        int z = x + y;
    }
}
