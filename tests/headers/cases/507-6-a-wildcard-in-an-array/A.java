class G<T> { }
class H<S, T> extends G<T> { }
abstract class A {
    abstract G<Integer>[] m();
}
abstract class B extends A {
    H<String, ?>[] m() { return null; }
}
