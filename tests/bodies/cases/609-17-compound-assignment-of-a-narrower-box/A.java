class A {
    void m(Integer i) {
        i += 1;
        i += 'c';
        i += 1L;
    }
}
