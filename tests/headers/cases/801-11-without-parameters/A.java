interface I<T> {
    void m(T t);
}
abstract class A implements I<String> {
    public void m(String s) { }
}
class B extends A {
    public void m(String s) { }
}
class C extends B implements I<String> {
    public void m(String s) { }
    void m(Object o, String s) { }
}
