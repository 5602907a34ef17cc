import java.util.List;
class Box<T> {
    T t;
    Box(T t) {
        this.t = t;
    }
}
class A {
    static Number first(List<? extends Number> l) {
        Box<? extends Number> b = new Box<>(l.get(0));
        return b.t;
    }
}
