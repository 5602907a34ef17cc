/** Superclass, then fields and initialisers in order, then the body; a call from a superclass sees zeros. */
class Constructors {
    static int say(String name, int value) {
        Out.line(name);
        return value;
    }

    static class A {
        int a = say("a", 1);
        { say("A block", 0); }
        A() { this(say("argument", 5)); say("A()", 0); }
        A(int x) { say("A(int)", x); seen(); }
        void seen() { Out.line("A sees", a); }
    }

    static class B extends A {
        int b = say("b", 2);
        final int c;
        final long fixed = 7;
        { c = say("B block", 3); }
        B() { super(); say("B()", 0); }
        B(boolean t) { super(t ? 8 : 9); say("B(boolean)", 0); }
        B(String s) { this(s.length() > 1); say("B(String)", c); }
        void seen() { Out.numbers(new long[] { a, b, c, fixed }); }
    }

    public static void main(String[] args) {
        new A();
        new B();
        new B("xy").seen();
    }
}
