class A {
    void m(boolean b) {
        if (b) break;
    }
}
