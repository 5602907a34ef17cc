/** An element keeps what fits its type. */
class ArrayKinds {
    public static void main(String[] args) {
        boolean[] z = new boolean[2];
        byte[] b = new byte[2];
        char[] c = new char[2];
        short[] s = new short[2];
        int[] i = new int[2];
        long[] l = new long[2];
        Object[] o = new Object[2];
        int big = 0x12345678;
        z[1] = true;
        b[0] = (byte) big; b[1] = (byte) 0x80;
        c[0] = (char) big; c[1] = (char) -1;
        s[0] = (short) big; s[1] = (short) 0x8000;
        i[0] = big; i[1] = -big;
        l[0] = big * 4294967296L; l[1] = -1;
        o[0] = i; o[1] = o;
        Out.line(z[0]); Out.line(z[1]);
        Out.numbers(new long[] { b[0], b[1], c[0], c[1], s[0], s[1], i[0], i[1], l[0], l[1] });
        Out.line(o[0] == i);
        Out.line(((Object[]) o[1])[1] == o);
        Out.numbers(new long[] { z.length, b.length, c.length, s.length, i.length, l.length, o.length });
    }
}
