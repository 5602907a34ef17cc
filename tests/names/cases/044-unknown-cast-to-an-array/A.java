class A {
    Object method(Object value) {
        return value == null ? (Object[]) value : (java.util.Nope[]) value;
    }
}
