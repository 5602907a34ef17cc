interface I<T> {
    void m(T t);
}
class A {
    public void m(Object o) { }
}
class B extends A implements I<String> {
    public void m(String s) { }
}
