/** An exception from a handler, or from behind a range, isn't caught by that range. */
class HandlerRanges {
    static void in(int kind) {
        try {
            try {
                if (kind == 0) throw new RuntimeException("try");
            } catch (RuntimeException e) {
                if (kind == 0) throw new RuntimeException("handler");
            } finally {
                if (kind == 1) throw new RuntimeException("finally");
            }
            if (kind == 2) throw new RuntimeException("behind");
        } catch (RuntimeException e) {
            Out.line(e.getMessage());
            if (kind == 3) return;
        }
        if (kind == 4) throw new RuntimeException("outside");
    }

    static int count;

    static void again() {
        try {
            count++;
            if (count < 3) {
                again();
            }
            throw new IllegalStateException(String.valueOf(count));
        } catch (IllegalStateException e) {
            Out.line(e.getMessage());
            count--;
            if (count > 0) {
                throw e;
            }
        }
    }

    public static void main(String[] args) {
        for (int kind = 0; kind < 4; kind++) {
            in(kind);
        }
        try {
            in(4);
        } catch (RuntimeException e) {
            Out.line(e.getMessage());
        }
        again();
        Out.line(count);
    }
}
