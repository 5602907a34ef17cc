class NestedTry {
    static int depth;

    static int walk(int n) {
        try {
            depth++;
            if (n == 0) {
                throw new IllegalStateException("bottom");
            }
            return walk(n - 1) + 1;
        } catch (IllegalArgumentException e) {
            return -1000;
        } finally {
            depth--;
            if (n % 10 == 0) {
                Out.line("left", n);
            }
        }
    }

    static String inner(boolean first, boolean second) {
        String trace = "";
        try {
            try {
                trace += "a";
                if (first) throw new RuntimeException("x");
                trace += "b";
            } catch (RuntimeException e) {
                trace += e.getMessage();
                if (second) throw new IllegalStateException("y");
            } finally {
                trace += "f";
            }
            trace += "c";
        } catch (IllegalStateException e) {
            trace += e.getMessage();
        }
        return trace;
    }

    public static void main(String[] args) {
        try {
            walk(35);
        } catch (IllegalStateException e) {
            Out.line(e.getMessage());
        }
        Out.line("depth", depth);
        Out.line(inner(false, false));
        Out.line(inner(true, false));
        Out.line(inner(true, true));
    }
}
