class A {
    A() {
        super();
        Nope unknown = null;
    }
}
