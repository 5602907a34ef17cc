/** Static initialisers in the order of the text, and what is read too early is zero. */
class InitOrder {
    static class A {
        static int first = peek();
        static int second = 2;
        static { Out.line(first); third = 9; Out.line(second); }
        static int third;
        static int fourth = third + 1;
        static final int FIFTH = 5;
        static final Integer SIXTH = 6;
        static final String SEVENTH = "s";
        static boolean eighth;
        static long ninth;
        static Object tenth;

        static int peek() {
            Out.line(second);
            Out.line(FIFTH);
            Out.line(SIXTH == null);
            Out.line(SEVENTH);
            Out.line(eighth);
            Out.line(ninth);
            Out.line(tenth == null);
            return 100;
        }
    }

    public static void main(String[] args) {
        Out.line(A.third);
        Out.line(A.fourth);
        Out.line(A.SIXTH);
    }
}
