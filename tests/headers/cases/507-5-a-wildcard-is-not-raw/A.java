class G<T> { }
class H<T> extends G<T> { }
abstract class A {
    abstract G<String> m();
}
abstract class B extends A {
    H<?> m() { return null; }
}
