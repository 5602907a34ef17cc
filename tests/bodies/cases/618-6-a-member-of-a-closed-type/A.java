class B {
    private static class C {
        public void go() { }
    }
    static C make() {
        return new C();
    }
}
class A {
    void m() {
        Object o = B.make();
        B.make().go();
    }
}
