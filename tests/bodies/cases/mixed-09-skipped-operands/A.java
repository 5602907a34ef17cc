import java.util.List;
class Cell<T> {
    T t;
    T get() {
        return t;
    }
}
class A {
    static <T> boolean same(Cell<T> a, T b) {
        return a.get() == b;
    }
    static boolean m(List<Cell<?>> cells, int i) {
        return i == 0 && same(cells.get(i), null) || i == 1 && cells.get(i).get() != null;
    }
}
