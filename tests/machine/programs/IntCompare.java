class IntCompare {
    static final int[] EDGES = { 0, 1, -1, 65536, 2147483647, -2147483648 };

    static int bits(int a, int b) {
        int bits = 0;
        if (a < b) bits |= 1;
        if (a <= b) bits |= 2;
        if (a == b) bits |= 4;
        if (a != b) bits |= 8;
        if (a >= b) bits |= 16;
        if (a > b) bits |= 32;
        return bits;
    }

    static int sign(int a) {
        int bits = 0;
        if (a < 0) bits |= 1;
        if (a <= 0) bits |= 2;
        if (a == 0) bits |= 4;
        if (a != 0) bits |= 8;
        if (a >= 0) bits |= 16;
        if (a > 0) bits |= 32;
        return bits;
    }

    public static void main(String[] args) {
        for (int i = 0; i < EDGES.length; i++) {
            Out.line("sign", sign(EDGES[i]));
            for (int j = 0; j < EDGES.length; j++) {
                Out.numbers(new long[] { EDGES[i], EDGES[j], bits(EDGES[i], EDGES[j]) });
            }
        }
        Object first = new Object();
        Object second = new Object();
        Object none = null;
        Out.line(first == first);
        Out.line(first == second);
        Out.line(first != second);
        Out.line(none == null);
        Out.line(none != null);
        Out.line(first == null);
        Out.line(first != none);
    }
}
