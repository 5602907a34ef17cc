import java.util.*;

class A {
    List<String> f(List raw) {
        List<String> l = raw;
        l =
            (raw);
        g(l,
            raw);
        return raw;
    }
    void g(List<String> a, List<Integer> b) {
    }
}
