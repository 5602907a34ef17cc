class A {
    boolean m(Integer i, Object o) {
        return o instanceof Integer && i instanceof Number && i instanceof String;
    }
}
