/** A static member that is inherited initialises the class that declares it alone. */
class InitThroughSubclass {
    static class A { static { Out.line("A"); } static int x = 1; static int f() { return 2; } }
    static class B extends A { static { Out.line("B"); } static int y = 3; }
    static class C extends B { static { Out.line("C"); } }

    public static void main(String[] args) {
        Out.line(C.x);
        C.x = 5;
        Out.line(B.x++);
        Out.line(C.f());
        Out.line(A.x);
        Out.line("B not yet");
        Out.line(C.y);
        Out.line("C not yet");
        new C();
    }
}
