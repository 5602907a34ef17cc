/** A superclass that fails makes its subclass fail, whose own initialiser doesn't run and catches nothing. */
class InitFailedSuper {
    static int zero;

    static class A { static { Out.line("A"); zero = 1 / zero; } }
    static class B extends A {
        static {
            try {
                Out.line("B");
            } catch (Throwable e) {
                Out.line("caught in B");
            }
        }
        static int x = 1;
    }
    static class C extends B { static int y = 2; }
    static class D extends A { static int z = 3; }

    static void use(int kind) {
        try {
            switch (kind) {
                case 0: case 2: Out.line(C.y); break;
                case 1: case 3: Out.line(B.x); break;
                case 4: Out.line(D.z); break;
                default: new A(); break;
            }
        } catch (Throwable e) {
            Out.line(Out.kind(e));
        }
    }

    public static void main(String[] args) {
        for (int kind = 0; kind < 6; kind++) {
            use(kind);
        }
    }
}
