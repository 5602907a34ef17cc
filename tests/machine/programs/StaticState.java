/** Static fields of each type, hidden and shared between classes. */
class StaticState {
    static boolean z; static byte b; static char c; static short s; static int i; static long l; static Object o;
    static long[] longs = { 1, 2 };

    static class Low extends StaticState { static int i = 9; }

    static void set() {
        z = !z; b += 100; c--; s -= 20000; i = i * 31 + 7; l = l * 31 + i; o = longs;
    }

    public static void main(String[] args) {
        Out.line(z);
        Out.numbers(new long[] { b, c, s, i, l });
        Out.line(o == null);
        for (int n = 0; n < 4; n++) set();
        Out.line(z);
        Out.numbers(new long[] { b, c, s, i, l, Low.i, Low.l, Low.b });
        Low.i++;
        Low.l = 4;
        Out.numbers(new long[] { i, StaticState.i, Low.i, l });
        Out.line(o == Low.longs);
    }
}
