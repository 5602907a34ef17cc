/** Arguments of one and two units, in each place. */
class LongArguments {
    final long kept;

    LongArguments(int a, long b, Object c, long d, byte e, boolean f, char g, short h) {
        kept = a + b * 3 + d * 5 + e * 7 + (f ? 11 : 13) + g + h + (c == null ? 0 : 1);
    }

    static long all(long a, int b, long c, int d, long e) { return a - b + c - d + e; }
    long own(int a, long b, int c) { return kept + a + b + c; }
    static long pick(int n, long a, long b, long c) { return n == 0 ? a : n == 1 ? b : c; }
    static void none(long a, Object b) { a = 5; b = null; Out.line(a); }

    public static void main(String[] args) {
        Out.line(all(1L << 40, 2, -3, 4, 1L << 41));
        LongArguments one = new LongArguments(1, 2, "c", 4, (byte) 5, true, 'g', (short) -8);
        Out.line(one.kept);
        Out.line(one.own(1, 1L << 33, 2));
        for (int n = 0; n < 3; n++) {
            Out.line(pick(n, -1, 1L << 32, 9223372036854775807L));
        }
        none(3, "x");
    }
}
