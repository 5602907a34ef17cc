class A<T> { T field; }
class B extends A<String> {
    T other;
}
