interface I<T> {
    void m(T t);
}
class A {
    public void m(Object o) { }
}
abstract class B extends A implements I<String> { }
