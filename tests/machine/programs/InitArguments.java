/** What runs before the class that a call, a creation or a store needs is initialised. */
class InitArguments {
    static int say(String name) {
        Out.line(name);
        return 1;
    }

    static class A { static { Out.line("A"); } static void f(int x) { Out.line("f"); } }
    static class B { static { Out.line("B"); } B(int x) { Out.line("new B"); } }
    static class C { static { Out.line("C"); } static int x; }
    static class D { static { Out.line("D"); } static int[] x = new int[2]; }
    static class E { static { Out.line("E"); } static int x; }

    public static void main(String[] args) {
        A.f(say("argument of f"));
        new B(say("argument of B"));
        C.x = say("value of x");
        D.x[say("index")] = say("element");
        E.x += say("summand");
    }
}
