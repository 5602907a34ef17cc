class A {
    A(Object value) { }
    A() {
        this((Nope) null);
    }
}
