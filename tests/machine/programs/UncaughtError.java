class UncaughtError {
    static class Trouble extends Error {
        Trouble(String text) { super(text); }
    }

    public static void main(String[] args) {
        try {
            throw new Trouble("deep");
        } catch (RuntimeException e) {
            Out.line("not this one");
        }
    }
}
