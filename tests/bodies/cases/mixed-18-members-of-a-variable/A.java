import java.util.List;
class A {
    static <E> E id(E e) {
        return e;
    }
    static <T extends List<? extends Number>, U extends T> Number m(T t, U u) {
        Number n = id(t.get(0));
        return id(u.get(0));
    }
}
