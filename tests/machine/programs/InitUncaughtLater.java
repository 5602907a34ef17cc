class InitUncaughtLater {
    static class Bad { static Object o = null; static int x = o.hashCode(); }

    public static void main(String[] args) {
        try {
            Out.line(Bad.x);
        } catch (ExceptionInInitializerError e) {
            Out.line("first");
        }
        Bad.x = 4;
        Out.line("not reached");
    }
}
