class A<A> {
    A field;
    A same(A a) {
        A local = a;
        return local;
    }
}
