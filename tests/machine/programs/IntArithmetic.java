/** Sums, differences, products and negations of ints wrap. */
class IntArithmetic {
    static final int[] EDGES = { 0, 1, -1, 2, 7, -13, 46341, 65535, 65536, 2147483647, -2147483648, -2147483647, 1431655765 };

    public static void main(String[] args) {
        for (int i = 0; i < EDGES.length; i++) {
            int a = EDGES[i];
            Out.line("neg", -a);
            for (int j = 0; j < EDGES.length; j++) {
                int b = EDGES[j];
                Out.numbers(new long[] { a, b, a + b, a - b, a * b });
            }
        }
    }
}
