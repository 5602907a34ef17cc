class A<T> {
    T m() { return null; }
}
class B extends A<String> {
    Integer m() { return null; }
}
