import java.util.ArrayList;
import java.util.Collection;
import java.util.List;
class E<X extends E<X>> { }
class F extends E<F> { }
class G extends E<G> { }
class A<T, U extends Number, V extends U> {
    void m(boolean b, List raw, ArrayList<String> a, Collection<Integer> c, List<? extends Integer> x, List<Integer> y, List<? super Integer> z) {
        List<String> d = b ? raw : a;
        Collection<? extends Comparable<?>> e = b ? a : c;
        for (Comparable<?> f : b ? a : c) m(b, raw, a, c, x, y, z);
        int i = (b ? x : y).get(0) + 1;
        List<?> g = b ? y : z;
    }
    void n(boolean b, T t, U u, V v, Integer[] i, String[] s, int[] q, F f, G g) {
        Number m = b ? u : v;
        Number n = b ? u : 1;
        Comparable<?>[] d = b ? i : s;
        Object e = b ? q : i;
        E<? extends E<?>> h = b ? f : g;
    }
}
