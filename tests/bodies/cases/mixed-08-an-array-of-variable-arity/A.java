class G<T> {
    Object m(T t) {
        return A.all(t);
    }
}
class A {
    static <U> Object all(U... u) {
        return u;
    }
    boolean n() {
        return new G<String>().m("s") instanceof String[];
    }
}
