package p;

class B {
    private static class M {
        static class N { }
    }
}
