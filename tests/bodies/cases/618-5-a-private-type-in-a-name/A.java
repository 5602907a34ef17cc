class B {
    private static class C {
        static int f;
    }
}
class A {
    int m() {
        return B.C.f;
    }
}
