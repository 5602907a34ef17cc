/** The first clause that takes the class runs, and no other. */
class CatchOrder {
    static class Low extends RuntimeException { }
    static class Lower extends Low { }
    static class Other extends Exception { }

    static void fail(int kind) throws Exception {
        switch (kind) {
            case 0: throw new Lower();
            case 1: throw new Low();
            case 2: throw new Other();
            case 3: throw new RuntimeException();
            case 4: throw new Exception();
            case 5: throw new Error();
            case 6: throw new ArithmeticException();
            default: Out.line("none");
        }
    }

    public static void main(String[] args) {
        for (int kind = 0; kind < 8; kind++) {
            try {
                fail(kind);
                Out.line("not left");
            } catch (Lower e) {
                Out.line("lower");
            } catch (Low e) {
                Out.line("low");
            } catch (ArithmeticException e) {
                Out.line("arithmetic");
            } catch (RuntimeException e) {
                Out.line("runtime");
            } catch (Exception e) {
                Out.line("exception");
            } catch (Throwable e) {
                Out.line("throwable");
            }
            try {
                try {
                    fail(kind);
                } catch (Low | Other e) {
                    Out.line("either");
                }
            } catch (Exception e) {
                Out.line("outside");
            } catch (Error e) {
                Out.line("error");
            }
        }
    }
}
