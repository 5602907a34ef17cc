class A {
    void m(boolean b, char c) {
        char d = b ? c : -1;
    }
}
