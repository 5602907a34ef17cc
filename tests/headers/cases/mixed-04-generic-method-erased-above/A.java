class A {
    <T> void m(T t) { }
}
class B extends A {
    void m(Object o) { }
}
