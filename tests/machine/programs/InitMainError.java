class InitMainError {
    static class Trouble extends Error { }
    static { Out.line("initialiser"); if (Out.kind(null) != null) throw new Trouble(); }

    public static void main(String[] args) {
        Out.line("not reached");
    }
}
