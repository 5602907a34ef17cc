class A {
    A(int a) { }
    A() {
        this(super.hashCode());
    }
}
