class A {
    void m(boolean b, char c, int i) {
        char d = b ? c : i;
    }
}
