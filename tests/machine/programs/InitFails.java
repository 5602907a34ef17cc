/** An exception becomes an ExceptionInInitializerError, an Error passes, and later uses find no class. */
class InitFails {
    static int count;

    static class Zero { static int x = 1 / (count - count); static { Out.line("not reached"); } static int f() { return 1; } }
    static class Own { static { if (count >= 0) throw new IllegalStateException("own"); } static void f() { } }
    static class Wrong { static { if (count >= 0) throw new Error("wrong"); } static int x; }
    static class Linked { static { if (count >= 0) throw new ExceptionInInitializerError("linked"); } static int x; }
    static class Partly { static int x = 5; static { count++; if (count > 0) throw new RuntimeException(); } }

    static void use(int kind) {
        try {
            switch (kind) {
                case 0: Out.line(Zero.x); break;
                case 1: Out.line(Zero.f()); break;
                case 2: new Zero(); break;
                case 3: Own.f(); break;
                case 4: new Own(); break;
                case 5: Wrong.x = 3; break;
                case 6: Out.line(Wrong.x); break;
                case 7: Linked.x++; break;
                case 8: new Linked(); break;
                case 9: Out.line(Partly.x); break;
                case 10: Out.line(Partly.x); break;
                case 11: Zero[] none = new Zero[2]; Out.line(none.length); break;
                default: Out.line((Object) none() instanceof Zero); break;
            }
        } catch (Throwable e) {
            Out.line(Out.kind(e));
            if (kind == 5) Out.line(e.getMessage());
        }
    }

    static Object none() { return null; }

    public static void main(String[] args) {
        for (int kind = 0; kind < 13; kind++) {
            use(kind);
        }
        Out.line(count);
    }
}
