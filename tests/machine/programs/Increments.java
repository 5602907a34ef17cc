/** ++ and -- before and behind each kind of variable. */
class Increments {
    static byte sb = 127;
    static short ss = -32768;
    static char sc = '\uffff';
    static int si = 2147483647;
    static long sl = 9223372036854775807L;
    byte b = -128;
    long l = -1;
    int i;

    public static void main(String[] args) {
        Out.numbers(new long[] { sb++, sb, --sb, sb });
        Out.numbers(new long[] { ss--, ss, ++ss, ss });
        Out.numbers(new long[] { sc++, sc, --sc, sc });
        Out.numbers(new long[] { si++, si, --si, si });
        Out.numbers(new long[] { sl++, sl, --sl, sl });
        Increments o = new Increments();
        Out.numbers(new long[] { o.b--, o.b, ++o.b, o.l++, o.l, --o.l, o.i++, ++o.i });
        byte[] bs = { 127 };
        short[] hs = { 32767 };
        char[] cs = { 0 };
        int[] is = { 5 };
        long[] ls = { 5 };
        Out.numbers(new long[] { bs[0]++, bs[0], hs[0]++, hs[0], cs[0]--, cs[0], is[0]--, --is[0], ls[0]++, ++ls[0] });
        int n = 3;
        int m = n++ * n + --n * n--;
        Out.numbers(new long[] { n, m });
        long w = 3;
        w = w++ + ++w;
        Out.line(w);
        byte local = 127;
        local++;
        Out.line(local);
        char last = 0;
        last--;
        Out.line(last);
    }
}
