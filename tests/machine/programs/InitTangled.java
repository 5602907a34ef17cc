/** Classes that need one another while they are initialised, and fail on the way. */
class InitTangled {
    static int zero;
    static String trace = "";

    static class A {
        static int x = 5;
        static {
            trace += "A";
            try {
                trace += B.y;
            } catch (ExceptionInInitializerError e) {
                trace += "b";
            }
            x = 6;
        }
    }

    static class B {
        static int y = A.x + 1;
        static {
            trace += "B" + A.x;
            C.f();
            trace += "never";
        }
    }

    static class C {
        static int z = trace.length();
        static void f() {
            trace += "C" + z + A.x + B.y;
            z = z / zero;
        }
    }

    static class One { static int v = Two.v + 1; }
    static class Two { static int v = Three.v + 1; }
    static class Three { static int v = One.v + 1; }

    static class Top { static int t = Bottom.b + 1; }
    static class Middle extends Top { static int m = t + 1; }
    static class Bottom extends Middle { static int b = m + 100; }

    static class Main2 { static int seen = InitTangled.late; }
    static int late = Main2.seen + 50;

    public static void main(String[] args) {
        Out.line(A.x);
        Out.line(trace);
        try {
            Out.line(B.y);
        } catch (NoClassDefFoundError e) {
            Out.line("no B");
        }
        Out.line(C.z);
        Out.line(Two.v);
        Out.line(One.v);
        Out.line(Three.v);
        Out.line(Top.t);
        Out.line(Middle.m);
        Out.line(Bottom.b);
        Out.line(late);
        Out.line(Main2.seen);
    }
}
