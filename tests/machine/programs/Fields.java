/** Fields of each type, inherited, hidden and shared. */
class Fields {
    static class A {
        boolean z; byte b; char c; short s; int i; long l; Object o; int[] a;
        int x = 1;
        static int made;
        A() { made++; }
        int x() { return x; }
    }

    static class B extends A {
        int x = 2;
        long l = 22;
        int own() { return x; }
        int above() { return super.x; }
    }

    static class C extends B {
        String x = "three";
    }

    public static void main(String[] args) {
        A a = new A();
        Out.line(a.z);
        Out.numbers(new long[] { a.b, a.c, a.s, a.i, a.l });
        Out.line(a.o == null && a.a == null);
        a.z = true; a.b = (byte) 200; a.c = (char) -2; a.s = (short) 40000; a.i = -7; a.l = 1L << 62; a.o = a; a.a = new int[] { 4 };
        Out.line(a.z);
        Out.numbers(new long[] { a.b, a.c, a.s, a.i, a.l, a.a[0] });
        Out.line(a.o == a);
        C c = new C();
        B b = c;
        A top = c;
        Out.line(c.x);
        Out.numbers(new long[] { b.x, top.x, c.x(), c.own(), c.above(), ((A) c).x, b.l, top.l });
        top.x = 10;
        b.x = 20;
        Out.numbers(new long[] { b.x, top.x, c.x(), c.own(), c.above() });
        Out.line(A.made);
        Out.line(B.made);
        A none = null;
        Out.line(none.made);
        try {
            none.i = 3;
        } catch (NullPointerException e) {
            Out.line("null");
        }
        try {
            none.l++;
        } catch (NullPointerException e) {
            Out.line("null");
        }
    }
}
