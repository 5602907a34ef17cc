class A {
    A(Object o) { }
    A() {
        this((Object) this);
    }
}
