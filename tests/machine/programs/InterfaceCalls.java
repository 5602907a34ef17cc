class InterfaceCalls {
    interface A { int f(int x); }
    interface B extends A { int g(long x, int y); }
    interface C { int f(int x); }
    static class Base { public int f(int x) { return x + 1; } }
    static class Both extends Base implements B, C { public int g(long x, int y) { return (int) x * y; } }
    static class Own implements A { public int f(int x) { return -x; } }
    static class Late extends Own implements C { }
    static abstract class Half implements B { public int g(long x, int y) { return f(y); } }
    static class Whole extends Half { public int f(int x) { return 100 + x; } }

    public static void main(String[] args) {
        A[] all = { new Both(), new Own(), new Late(), new Whole() };
        for (A a : all) {
            Out.line(a.f(3));
            if (a instanceof B) Out.line(((B) a).g(5L, 6));
            if (a instanceof C) Out.line(((C) a).f(7));
            Out.line(a.equals(a));
            Out.line(a.hashCode() == a.hashCode());
        }
        A none = args.length > 100 ? all[0] : null;
        try {
            Out.line(none.f(1));
        } catch (NullPointerException e) {
            Out.line("null");
        }
        Half half = new Whole();
        Out.line(half.f(1));
        Out.line(half.g(1, 2));
    }
}
