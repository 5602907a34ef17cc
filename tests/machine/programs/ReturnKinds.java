/** Results of each type, and bodies that end in each way. */
class ReturnKinds {
    static boolean z(int n) { return n > 0; }
    static byte b(int n) { return (byte) n; }
    static char c(int n) { return (char) n; }
    static short s(int n) { return (short) n; }
    static int i(int n) { return n; }
    static long l(int n) { return n * 4294967297L; }
    static Object o(int n) { return n > 0 ? "yes" : null; }
    static int[] a(int n) { return new int[] { n }; }
    static void v(int n) { if (n > 0) { Out.line("early"); return; } Out.line("late"); }
    static int forever(int n) { for (;;) { if (n > 1000) return n; n += n + 1; } }
    static int thrown(int n) { throw new IllegalStateException(String.valueOf(n)); }

    public static void main(String[] args) {
        int[] all = { 1, -1, 70000 };
        for (int n : all) {
            Out.line(z(n));
            Out.numbers(new long[] { b(n), c(n), s(n), i(n), l(n), a(n)[0] });
            Out.line(o(n) == null);
            v(n);
            z(n); l(n); o(n); i(n);
            if (n >= 0) Out.line(forever(n));
            try {
                thrown(n);
            } catch (IllegalStateException e) {
                Out.line(e.getMessage());
            }
        }
    }
}
