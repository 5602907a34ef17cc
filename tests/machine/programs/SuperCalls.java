/** Calls by super and of private methods go to one body, whatever the object is. */
class SuperCalls {
    static class A {
        private String secret() { return "A"; }
        String open() { return secret() + "a"; }
        String name() { return "A" + this.secret(); }
        static String still() { return "still A"; }
    }

    static class B extends A {
        private String secret() { return "B"; }
        String name() { return super.name() + secret(); }
        String open() { return "b" + super.open(); }
        static String still() { return "still B"; }
    }

    static class C extends B {
        String secret() { return "C"; }
        String name() { return secret() + super.name(); }
        String old() { return super.open(); }
    }

    static class D extends C { }

    public static void main(String[] args) {
        A[] all = { new A(), new B(), new C(), new D() };
        for (A a : all) {
            Out.line(a.name());
            Out.line(a.open());
            Out.line(a.still());
        }
        Out.line(new D().old());
        Out.line(new D().secret());
        Out.line(B.still());
        Out.line(D.still());
    }
}
