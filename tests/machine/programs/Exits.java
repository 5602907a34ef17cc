class Exits {
    static int f() {
        try {
            System.exit(3);
            return 1;
        } catch (Throwable e) {
            Out.line("not reached");
        } finally {
            Out.line("not reached either");
        }
        return 2;
    }

    public static void main(String[] args) {
        Out.line("before");
        Out.line(f());
    }
}
