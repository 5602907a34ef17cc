class B {
    static class M {
        private static class N { }
    }
}
class A {
    B.M.N field;
}
