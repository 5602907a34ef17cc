/** Sums, differences, products and negations of longs wrap. */
class LongArithmetic {
    static final long[] EDGES = { 0, 1, -1, 3, 4294967295L, 4294967296L, -4294967297L, 3037000500L,
        9223372036854775807L, -9223372036854775808L, 6148914691236517205L };

    public static void main(String[] args) {
        for (int i = 0; i < EDGES.length; i++) {
            long a = EDGES[i];
            Out.line("neg", -a);
            for (int j = 0; j < EDGES.length; j++) {
                long b = EDGES[j];
                Out.numbers(new long[] { a, b, a + b, a - b, a * b });
            }
        }
    }
}
