/** The class with main fails before main. */
class InitMainFails {
    static int x = 3;
    static { Out.line("initialiser"); x = x / (x - 3); }

    public static void main(String[] args) {
        Out.line("not reached");
    }
}
