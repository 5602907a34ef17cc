class A {
    static class B<T extends M> extends N<M> implements I { }
    static class M { }
    static class N<T> { }
    interface I { }
}
