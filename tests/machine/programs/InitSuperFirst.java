/** The superclass comes first, once. */
class InitSuperFirst {
    static class A { static { Out.line("A"); } static int a = 1; static void f() { Out.line("f"); } }
    static class B extends A { static { Out.line("B"); } static int b = 2; }
    static class C extends B { static { Out.line("C"); } static int c = 3; }
    static class D extends B { static { Out.line("D"); } }
    static class E extends A { static { Out.line("E"); } }

    public static void main(String[] args) {
        E.f();
        Out.line(D.a);
        Out.line(C.c);
        Out.line(D.b);
        new D();
        new E();
        Out.line("end");
    }
}
