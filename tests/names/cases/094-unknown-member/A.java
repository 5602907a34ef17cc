class A {
    static class M { }
    A.N field;
}
