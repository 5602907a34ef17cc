/** Ends by an exception of its own, behind its finally blocks. */
class UncaughtOwn {
    static class Own extends RuntimeException { }

    static void fail(int n) {
        try {
            if (n == 0) throw new Own();
            fail(n - 1);
        } finally {
            Out.line("finally", n);
        }
    }

    public static void main(String[] args) {
        fail(3);
        Out.line("not reached");
    }
}
