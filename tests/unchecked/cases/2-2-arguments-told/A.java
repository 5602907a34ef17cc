import java.util.*;

class A {
    void f(Object o, List raw, Collection<String> c, Collection<? extends Number> d, ArrayList<String> e) {
        Object p;
        p = (List<?>) o;
        p = (List<?>) raw;
        p = (List<String>) c;
        p = (ArrayList<? extends Number>) d;
        p = (Collection<? extends Object>) e;
        p = (List) o;
    }
}
