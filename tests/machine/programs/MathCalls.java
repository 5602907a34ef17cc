class MathCalls {
    public static void main(String[] args) {
        int[] ints = { 0, 5, -5, 2147483647, -2147483648 };
        for (int a : ints) {
            Out.line(Math.abs(a));
            Out.line(Math.abs((long) a));
            for (int b : ints) {
                Out.numbers(new long[] { Math.max(a, b), Math.min(a, b), Math.max((long) a, b), Math.min(a, (long) b) });
            }
        }
        Out.line(Math.abs(-9223372036854775808L));
    }
}
