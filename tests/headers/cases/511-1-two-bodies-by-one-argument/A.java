class A<T> {
    void m(T t) { }
    void m(String s) { }
}
class B extends A<String> { }
