class G<T> { }
class H extends G { }
abstract class A {
    abstract G<String> one();
    abstract G<String> two();
    abstract G<String>[] three();
    abstract G<String> four();
}
abstract class B<T extends H> extends A {
    G one() { return null; }
    H two() { return null; }
    G[] three() { return null; }
    T four() { return null; }
}
