import java.util.*;

class Cell<T> { T t; int n; List raw; static List<String> l; }
class A {
    void f(Cell raw, Cell<String> other, List<String> l) {
        raw.n = 1;
        raw.n += 2;
        raw.n++;
        raw.raw = l;
        raw.l = l;
        other.t = "a";
        Object o = raw.t;
    }
}
