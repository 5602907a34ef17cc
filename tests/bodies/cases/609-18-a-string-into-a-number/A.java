class A {
    void m(char c) {
        c += 1;
        c -= 1L;
        c += "a";
    }
}
