import java.util.*;

class A {
    static void g(Collection<?> first, List<?>... others) {
    }
    static void h(int n, List<? extends Object>... others) {
    }
    void f(List raw) {
        g(raw, raw, raw);
        h(0,
            raw);
    }
}
