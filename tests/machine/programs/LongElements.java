/** Compound assignments of long elements and fields, and their values, which need each way to double the stack's top. */
class LongElements {
    long field = 5;
    static long shared = 6;
    int small = 7;
    String text = "t";

    public static void main(String[] args) {
        long[] longs = { 1, 2, 3 };
        long a = longs[0]++;
        long b = ++longs[1];
        long c = longs[2] += 10;
        long d = longs[0] = longs[1] = 77;
        Out.numbers(longs);
        Out.numbers(new long[] { a, b, c, d });
        LongElements one = new LongElements();
        long e = one.field++;
        long f = ++one.field;
        long g = one.field *= 3;
        long h = one.field = shared = 9;
        long i = shared++;
        long j = shared -= 100;
        Out.numbers(new long[] { e, f, g, h, i, j, one.field, shared });
        int k = one.small++;
        int l = one.small = 3;
        int[] ints = { 4 };
        int m = ints[0]++;
        int n = ints[0] = 8;
        Out.numbers(new long[] { k, l, m, n, one.small, ints[0] });
        String[] texts = { "a" };
        String o = texts[0] += "b";
        String p = one.text += "u";
        Out.line(o);
        Out.line(p);
        String q = texts[0] = one.text = "same";
        Out.line(q == texts[0]);
        longs[1]++;
        one.field++;
        shared++;
        longs[0] = 1;
        Out.line(longs[1] + one.field + shared + longs[0]);
    }
}
