class A {
    boolean m(Object o) {
        return o == 1;
    }
}
