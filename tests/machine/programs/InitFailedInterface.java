class InitFailedInterface {
    static int zero;
    interface I { int X = 1 / zero; int Y = 5; int Z = zero + 6; }
    static class A implements I { static int a = 7; }

    static void use(int kind) {
        try {
            switch (kind) {
                case 0: Out.line(A.a); break;
                case 1: Out.line(A.Z); break;
                case 2: Out.line(I.X); break;
                case 3: Out.line(I.Y); break;
                default: Out.line(new A() instanceof I); break;
            }
        } catch (Throwable e) {
            Out.line(Out.kind(e));
        }
    }

    public static void main(String[] args) {
        for (int kind = 0; kind < 5; kind++) {
            use(kind);
        }
    }
}
