import java.util.*;

class Cell<T, N extends Integer> { T t; N n; List<String> l; }
class A {
    void f(Cell raw, List<String> l) {
        raw.t = "a";
        raw.l = l;
        raw.t += "b";
        raw.n++;
        --raw.n;
    }
}
