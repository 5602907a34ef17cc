/** A chain of classes, each of which needs the next one in its initialiser. */
class InitManyClasses {
    static class A { static int x = B.x + 1; }
    static class B { static int x = C.x + 1; }
    static class C { static int x = D.x + 1; }
    static class D { static int x = new E().y + 1; }
    static class E { static int x = F.f() + 1; int y = x; }
    static class F extends G { static int x = 100; static int f() { return x + g; } }
    static class G { static int g = H.VALUES[3]; }
    static class H { static final int[] VALUES = { 1, 2, 3, 4 }; }

    public static void main(String[] args) {
        Out.line(A.x);
        Out.line(C.x);
        Out.line(F.x);
    }
}
