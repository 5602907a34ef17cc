class InitExits {
    static class A { static { Out.line("leaves"); System.exit(7); } static int x; }

    public static void main(String[] args) {
        try {
            Out.line(A.x);
        } finally {
            Out.line("not reached");
        }
    }
}
