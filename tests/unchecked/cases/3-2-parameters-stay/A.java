import java.util.*;

class Box<T> {
    Box(int n) {
    }
    static <U> void all(U u, List<U> l) {
    }
    void put(String s, int n, List raw) {
    }
}
class A {
    void f(List raw, Box box, Box<?> other) {
        raw.get(0);
        raw.size();
        box.put("a", 1, raw);
        box.all("a", new ArrayList<String>());
        other.put("a", 1, raw);
        new Box(1);
    }
}
