import java.util.List;
class A<T> {
    static <X> X pick(X a, X b) {
        return a;
    }
    T m(T t, List<? extends T> l) {
        T u = l.get(0);
        T v = pick(t, u);
        return pick(t, l.get(0));
    }
}
