class UncaughtInFinally {
    public static void main(String[] args) {
        try {
            throw new IllegalStateException();
        } finally {
            Out.line("replaced");
            Object[] none = null;
            none[0] = "text";
        }
    }
}
