class UncaughtThrowNull {
    static RuntimeException none;

    public static void main(String[] args) {
        try {
            throw none;
        } finally {
            Out.line("finally");
        }
    }
}
