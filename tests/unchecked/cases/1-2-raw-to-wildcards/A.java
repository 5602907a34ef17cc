import java.util.*;

class A {
    List<?> f(List raw, ArrayList[] raws) {
        List<?> l = raw;
        Collection<?>[] a = raws;
        g(raw);
        return raw;
    }
    void g(Collection<?> c) {
    }
}
