import java.util.List;
class A {
    static <E> void move(List<E> a, List<E> b) {
        b.set(0, a.get(0));
    }
    static void both(List<?> l) {
        move(l, l);
    }
}
