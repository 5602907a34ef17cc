class A {
    void m(Object o) { }
}
class B extends A {
    <T> void m(T t) { }
}
