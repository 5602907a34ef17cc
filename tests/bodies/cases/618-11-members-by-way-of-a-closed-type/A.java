class B {
    private static class C {
        public int f;
        public int go() {
            return 1;
        }
    }
    static class D extends C { }
    static C c;
}
class A {
    int m(B.D d) {
        Object o = B.c == null ? B.c : B.c;
        return d.f + d.go() + ("" + B.c).length();
    }
}
