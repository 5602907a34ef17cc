import java.util.*;

class A {
    void f(Object o, List raw, Collection<? extends Number> c) {
        Object p;
        p = (List<String>) o;
        p = (List<String>) raw;
        p = (List<Integer>) c;
    }
}
