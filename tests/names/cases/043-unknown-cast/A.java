class A {
    Object method(Object value) {
        return (Nope) value;
    }
}
