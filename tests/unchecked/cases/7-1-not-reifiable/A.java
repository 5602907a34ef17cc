import java.util.*;

class Box<E> {
    Box(E... es) { }
    void all(E... es) { }
}
class A<T> {
    static <X> void f(X... xs) { }
    <V extends Box<List<String>>> void g(List<String> l, T t, Box<T> box, V v) {
        f(l, l);
        f(t);
        box.all();
        v.all(l);
        new Box<List<String>>(l);
    }
}
