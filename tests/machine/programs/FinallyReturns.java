/** What a finally block does to a value that is being returned, or to an exception. */
class FinallyReturns {
    static int kept() {
        int x = 1;
        try {
            return x;
        } finally {
            x = 2;
        }
    }

    static int[] shared() {
        int[] x = { 1 };
        try {
            return x;
        } finally {
            x[0] = 2;
        }
    }

    @SuppressWarnings("finally")
    static int replaced() {
        try {
            return 1;
        } finally {
            return 2;
        }
    }

    @SuppressWarnings("finally")
    static long swallowed() {
        try {
            throw new IllegalStateException();
        } finally {
            return 7;
        }
    }

    @SuppressWarnings("finally")
    static int thrown() {
        try {
            return 1;
        } finally {
            throw new IllegalArgumentException("from finally");
        }
    }

    static long deep(long n) {
        try {
            try {
                return n + 1;
            } finally {
                n = 100;
                Out.line("first");
            }
        } finally {
            Out.line("second", n);
        }
    }

    static String caught() {
        try {
            throw new RuntimeException("caught");
        } catch (RuntimeException e) {
            return e.getMessage();
        } finally {
            Out.line("finally");
        }
    }

    public static void main(String[] args) {
        Out.line(kept());
        Out.line(shared()[0]);
        Out.line(replaced());
        Out.line(swallowed());
        try {
            Out.line(thrown());
        } catch (IllegalArgumentException e) {
            Out.line(e.getMessage());
        }
        Out.line(deep(5));
        Out.line(caught());
    }
}
