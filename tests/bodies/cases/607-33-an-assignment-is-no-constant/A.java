class A {
    void m(byte b, int i) {
        i = b = 5;
        b = i = 5;
    }
}
