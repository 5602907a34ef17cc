/** Quotients are cut towards zero, remainders have the sign of the dividend, and a zero divisor throws. */
class IntDivision {
    static final int[] EDGES = { 0, 1, -1, 2, -2, 7, -7, 10, 65536, 2147483647, -2147483648 };

    public static void main(String[] args) {
        for (int i = 0; i < EDGES.length; i++) {
            for (int j = 0; j < EDGES.length; j++) {
                int a = EDGES[i];
                int b = EDGES[j];
                try {
                    Out.numbers(new long[] { a, b, a / b, a % b });
                } catch (ArithmeticException e) {
                    Out.line("by zero", a);
                }
            }
        }
        int zero = EDGES[0];
        try {
            Out.line(5 % zero);
        } catch (ArithmeticException e) {
            Out.line("remainder by zero");
        }
    }
}
