interface I { }
class A {
    private int f;
    static class B extends A implements I { }
    static class C extends A implements I { }
    int m(boolean b, B x, C y) {
        A a = b ? x : y;
        return a.f + (b ? x : y).f;
    }
}
