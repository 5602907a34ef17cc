class A {
    static class M { static class N { } }
    A.M.A field;
}
