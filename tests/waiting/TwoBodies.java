class A<T> {
    void m(T t) { }
    void m(String s) { }
}

class Main {
    static void f(A<String> a) { a.m("s"); }
}
