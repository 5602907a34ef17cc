import java.util.List;
class A<T> {
    List<? extends T> m(boolean b, List<T> l, List<? extends T> k) {
        List<?> o = b ? l : k;
        return b ? l : k;
    }
}
