class A {
    void m(Object o) {
        Object p = ((o));
        String s = ((o));
    }
}
