class Constrain<A, B extends A> { }
class Bind<A> {
    <B extends A> A up(Constrain<A, B> c, B b) {
        return b;
    }
}
class A {
    static <T, U> U coerce(T t) {
        Constrain<U, ? super T> c = null;
        return new Bind<U>().up(c, t);
    }
}
