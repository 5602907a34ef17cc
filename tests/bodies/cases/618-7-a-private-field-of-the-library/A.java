class A {
    void m(Math a) {
        Object o = new Math();
    }
}
