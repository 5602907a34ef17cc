class A<T extends M> {
    static class M { }
}
