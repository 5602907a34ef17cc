class LongDivision {
    static final long[] EDGES = { 0, 1, -1, 2, -2, 10, -10, 4294967296L, -4294967295L,
        9223372036854775807L, -9223372036854775808L };

    public static void main(String[] args) {
        for (int i = 0; i < EDGES.length; i++) {
            for (int j = 0; j < EDGES.length; j++) {
                long a = EDGES[i];
                long b = EDGES[j];
                try {
                    Out.numbers(new long[] { a, b, a / b });
                } catch (ArithmeticException e) {
                    Out.line("quotient by zero", a);
                }
                try {
                    Out.numbers(new long[] { a, b, a % b });
                } catch (ArithmeticException e) {
                    Out.line("remainder by zero", a);
                }
            }
        }
    }
}
