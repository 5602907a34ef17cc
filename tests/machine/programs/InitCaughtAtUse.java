/** The handler round the instruction that asked for a class catches what its initialisation throws. */
class InitCaughtAtUse {
    static int zero;
    static class A { static int f() { return 5; } static int x = 1 / zero; }
    static class B { static int x = 1 / zero; }
    static class C { static int x = 1 / zero; }
    static class D { static int x = 1 / zero; int y; }

    static int call() {
        try { return A.f(); } catch (ExceptionInInitializerError e) { return 1; }
    }

    static int read() {
        try { return B.x; } catch (LinkageError e) { return 2; }
    }

    static int write() {
        try { C.x = 5; return 0; } catch (Error e) { return 3; }
    }

    static int make() {
        try { return new D().y; } catch (Throwable e) { return 4; }
    }

    public static void main(String[] args) {
        Out.line(call());
        Out.line(read());
        Out.line(write());
        Out.line(make());
        Out.line(call() + read() * 10 + write() * 100 + make() * 1000);
    }
}
