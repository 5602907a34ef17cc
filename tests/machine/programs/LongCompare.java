class LongCompare {
    static final long[] EDGES = { 0, 1, -1, 4294967296L, -4294967296L, 2147483648L, 9223372036854775807L, -9223372036854775808L };

    static int bits(long a, long b) {
        int bits = 0;
        if (a < b) bits |= 1;
        if (a <= b) bits |= 2;
        if (a == b) bits |= 4;
        if (a != b) bits |= 8;
        if (a >= b) bits |= 16;
        if (a > b) bits |= 32;
        return bits;
    }

    public static void main(String[] args) {
        for (int i = 0; i < EDGES.length; i++) {
            for (int j = 0; j < EDGES.length; j++) {
                Out.numbers(new long[] { EDGES[i], EDGES[j], bits(EDGES[i], EDGES[j]) });
            }
        }
    }
}
