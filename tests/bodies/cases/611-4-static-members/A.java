class A {
    static int f;
    static int go() {
        return f;
    }
    static class B extends A {
        int m() {
            return go() + f + A.f + this.f + super.go() + new B().go();
        }
        static int n() {
            return go() + f;
        }
    }
}
