class Constrain<A, B extends A> { }
class Main {
    static <T, U> U coerce(T t) {
        Constrain<U, ? super T> c = null;
        return null;
    }
}
