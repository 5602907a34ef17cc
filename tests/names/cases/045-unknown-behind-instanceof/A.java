class A {
    boolean method(Object value) {
        return value != null && !(value instanceof Nope);
    }
}
