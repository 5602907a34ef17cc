class B {
    private static class C { }
    static C c;
    static C[] d;
    static void go(C... c) { }
}
class A {
    void m() {
        B.go(B.d);
        B.go(B.c);
    }
}
