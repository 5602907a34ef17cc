class B {
    private static class M {
        static class N { }
    }
}
class A extends B.M.N { }
