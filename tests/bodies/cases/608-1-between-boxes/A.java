class A {
    Object m(Integer i) {
        return (Long) i;
    }
}
