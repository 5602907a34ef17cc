class Rethrows {
    static class Checked extends Exception {
        final int code;

        Checked(int code) {
            super("code ".concat(String.valueOf(code)));
            this.code = code;
        }
    }

    static void first(int code) throws Checked {
        if (code > 0) throw new Checked(code);
    }

    static void second(int code) throws Checked {
        try {
            first(code);
            Out.line("fine");
        } catch (final Exception e) {
            Out.line("seen");
            throw e;
        }
    }

    static void third(int code) {
        try {
            second(code);
        } catch (Checked e) {
            throw new RuntimeException(e.toString());
        }
    }

    public static void main(String[] args) {
        Throwable kept = null;
        for (int code = 0; code < 3; code++) {
            try {
                second(code);
            } catch (Checked e) {
                Out.line(e.getMessage());
                Out.line(e.code);
                Out.line(e.toString());
                kept = e;
            }
            try {
                third(code);
            } catch (RuntimeException e) {
                Out.line(e.getMessage());
            }
        }
        try {
            throw kept;
        } catch (Throwable e) {
            Out.line(e == kept);
        }
    }
}
