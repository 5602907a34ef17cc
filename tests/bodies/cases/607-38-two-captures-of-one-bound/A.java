import java.util.List;
class A<T, N extends Number> {
    T m(boolean b, List<? extends T> k, List<? extends N> n) {
        Number o = b ? n.get(0) : n.get(1);
        T t = k.get(0), u = b ? k.get(1) : null;
        t = b ? t : u;
        return b ? k.get(0) : k.get(1);
    }
}
