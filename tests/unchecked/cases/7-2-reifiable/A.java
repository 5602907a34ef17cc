import java.util.*;

class Box<E> {
    Box(E... es) { }
    void all(E... es) { }
}
class A<T> {
    static <X> void f(X... xs) { }
    <V extends Box<String>> void g(List<?> l, List raw, List<String>[] lists, Box<String> box, V v) {
        f(raw, raw);
        f("a", "b");
        f(lists);
        box.all();
        v.all("a");
        new Box<String>("a");
    }
}
