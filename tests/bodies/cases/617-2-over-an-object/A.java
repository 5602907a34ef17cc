class A {
    void m(Object a) {
        for (Object o : a) m(o);
    }
}
