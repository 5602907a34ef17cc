class A {
    <T> void first(T it) { }
    void second(T it) { }
}
