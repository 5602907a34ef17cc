import java.util.*;

class Box<T> {
    Box(T t) {
    }
    void put(List<? extends T> l) {
    }
}
class A {
    void f(List raw, Box box) {
        raw.add("a");
        box.put(raw);
        new Box("a");
    }
}
