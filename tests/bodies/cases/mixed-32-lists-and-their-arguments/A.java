import java.util.Collection;
import java.util.List;
class A {
    void m(List<Integer> l) {
        Collection<? extends Number> c = l;
        Collection<? super Integer> d = l;
        List<?> e = l;
        List<? extends List<?>> f = null;
        List<List<?>> g = null;
        f = g;
        g = f;
    }
}
