/** Which of several methods of one name the class file names. */
class Overloads {
    static void f(Object o) { Out.line("object"); }
    static void f(String s) { Out.line("string"); }
    static void f(int i) { Out.line("int"); }
    static void f(long l) { Out.line("long"); }
    static void f(Integer i) { Out.line("box"); }
    static void f(char c) { Out.line("char"); }
    static void f(int... many) { Out.line("many", many.length); }
    static void f(Object[] many) { Out.line("objects"); }

    static class A {
        void g(A a) { Out.line("A.g(A)"); }
    }

    static class B extends A {
        void g(B b) { Out.line("B.g(B)"); }
        void g(A a) { Out.line("B.g(A)"); }
    }

    public static void main(String[] args) {
        byte b = 1;
        short s = 2;
        f(b); f(s); f('c'); f(3); f(4L); f("five"); f((Object) "six"); f(Integer.valueOf(7)); f(); f(8, 9); f(args); f(new Object[0]);
        f(Long.valueOf(10));
        f((Object) null);
        A a = new B();
        B both = new B();
        a.g(a); a.g(both); both.g(a); both.g(both);
    }
}
