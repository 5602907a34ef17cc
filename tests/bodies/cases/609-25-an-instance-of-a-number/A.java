class A {
    boolean m(int i) {
        return i instanceof Object;
    }
}
