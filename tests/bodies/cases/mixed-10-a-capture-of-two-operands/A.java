import java.util.List;
class Cell<T> {
    T t;
}
class A {
    static <T> boolean same(Cell<T> a, T b) {
        return a.t == b;
    }
    static boolean m(List<Cell<?>> cells) {
        return same(cells.get(0), cells.get(0).t);
    }
}
