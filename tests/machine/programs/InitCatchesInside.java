/** An initialiser may catch what its own code, and what another class's initialisation, throws. */
class InitCatchesInside {
    static int zero;
    static class Bad { static int x = 1 / zero; }
    static class Good {
        static int x;
        static {
            try {
                x = Bad.x;
            } catch (ExceptionInInitializerError e) {
                x = 1;
            }
            try {
                x += Bad.x;
            } catch (NoClassDefFoundError e) {
                x += 10;
            }
            try {
                x = x / zero;
            } catch (ArithmeticException e) {
                x += 100;
            } finally {
                x += 1000;
            }
        }
    }
    static class Passes { static int x = Bad.x; }

    public static void main(String[] args) {
        Out.line(Good.x);
        try {
            Out.line(Passes.x);
        } catch (Throwable e) {
            Out.line(Out.kind(e));
        }
        try {
            Out.line(Passes.x);
        } catch (Throwable e) {
            Out.line(Out.kind(e));
        }
    }
}
