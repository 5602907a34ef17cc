interface One<X> { }
interface Two<X, Y> extends One<X> { }
class A {
    void f(One<String> one) {
        Object p;
        p = (Two<String, ?>) one;
        p = (Two<String, Integer>) one;
    }
}
