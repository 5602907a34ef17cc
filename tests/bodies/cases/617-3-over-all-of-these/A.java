import java.util.Iterator;
import java.util.List;
import java.util.Map;
class B implements Iterable<Integer> {
    public Iterator<Integer> iterator() {
        return null;
    }
}
class A {
    <T extends List<? extends Number>> void m(T t, Map<String, ? super Integer> k, int[][] c, B b, Iterable r, List<? extends int[]> d) {
        for (Number n : t) m(t, k, c, b, r, d);
        for (Map.Entry<String, ? super Integer> e : k.entrySet()) m(t, k, c, b, r, d);
        for (int[] e : c) for (long f : e) m(t, k, c, b, r, d);
        for (int i : b) m(t, k, c, b, r, d);
        for (Object o : r) m(t, k, c, b, r, d);
        for (int[] e : d) e[0] = d.get(0).length;
        for (int i : d.get(0)) m(t, k, c, b, r, d);
    }
}
