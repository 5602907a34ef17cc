class A {
    <T> void m(T t) { }
    <U> void m(U u) { }
}
