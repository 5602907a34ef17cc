class Box<T> { void put(T t) { } }
class Sub extends Box { void f() { put("a"); } }
class A<X extends Box> {
    void f(Sub s, X x) {
        s.put("a");
        x.put("a");
    }
}
