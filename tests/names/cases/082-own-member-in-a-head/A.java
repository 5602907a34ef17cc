class A extends M {
    static class M { }
}
