class A {
    void m(int a) {
        String a = 1;
    }
}
