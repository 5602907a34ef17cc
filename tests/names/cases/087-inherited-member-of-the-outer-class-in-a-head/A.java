class A extends C {
    static class B<T extends M> extends M { }
}
class C {
    static class M { }
}
