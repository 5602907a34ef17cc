class UncaughtNull {
    static String text;

    public static void main(String[] args) {
        Out.line("begins");
        Out.line(text.length());
    }
}
