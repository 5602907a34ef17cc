import java.util.List;
class A {
    static <X extends Comparable<X>> X most(X a, X b) {
        return a.compareTo(b) > 0 ? a : b;
    }
    static <T extends Comparable<T>> T m(T t, List<? extends T> l) {
        T u = l.get(0);
        T v = most(t, u);
        return most(t, l.get(0));
    }
}
