class Casts {
    interface I { }
    interface J extends I { }
    interface K { }
    static class A { }
    static class B extends A implements J { }
    static class C extends B implements K { }
    static final class D implements I { }

    static int can(Object o) {
        int bits = 0;
        try { A x = (A) o; bits |= 1; } catch (ClassCastException e) { }
        try { B x = (B) o; bits |= 2; } catch (ClassCastException e) { }
        try { C x = (C) o; bits |= 4; } catch (ClassCastException e) { }
        try { D x = (D) o; bits |= 8; } catch (ClassCastException e) { }
        try { I x = (I) o; bits |= 16; } catch (ClassCastException e) { }
        try { J x = (J) o; bits |= 32; } catch (ClassCastException e) { }
        try { K x = (K) o; bits |= 64; } catch (ClassCastException e) { }
        try { Object x = (Object) o; bits |= 128; } catch (ClassCastException e) { }
        try { A[] x = (A[]) o; bits |= 256; } catch (ClassCastException e) { }
        return bits;
    }

    static int is(Object o) {
        return (o instanceof A ? 1 : 0) + (o instanceof B ? 2 : 0) + (o instanceof C ? 4 : 0) + (o instanceof D ? 8 : 0)
            + (o instanceof I ? 16 : 0) + (o instanceof J ? 32 : 0) + (o instanceof K ? 64 : 0) + (o instanceof Object ? 128 : 0)
            + (o instanceof A[] ? 256 : 0);
    }

    public static void main(String[] args) {
        Object[] all = { null, new Object(), new A(), new B(), new C(), new D(), "text", new A[1], new B[1], new C[1][1], new Object[1] };
        for (Object o : all) {
            Out.line(can(o));
            Out.line(is(o));
        }
    }
}
