class A {
    Object m(Object a) {
        return a[0];
    }
}
