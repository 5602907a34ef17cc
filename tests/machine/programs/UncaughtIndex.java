class UncaughtIndex {
    public static void main(String[] args) {
        try {
            Out.line(args[0]);
        } catch (NullPointerException e) {
            Out.line("not this one");
        }
    }
}
