import java.util.*;

interface One<X> { }
class In<X> implements One<List<X>> { }
interface Two<X, Y> { }
class Both<X> implements Two<X, X> { }
class A {
    void f(One<List<String>> one, Two<? extends Number, ? extends Number> two) {
        Object p;
        p = (In<String>) one;
        p = (Both<? extends Number>) two;
    }
}
