class A {
    void m(int a) {
        a++ ++;
    }
}
