class A extends B<String> { }
abstract class B<T> {
    abstract void n(T t);
    void n(String s) { }
}
