/** An exception drops what its frames held, and the handler begins with an empty stack. */
class Unwinding {
    static int fail(int n) {
        if (n == 0) throw new ArithmeticException("deep");
        return n * (n + fail(n - 1));
    }

    static int held(int a, int b) {
        return a + b * (a - tried(b));
    }

    static int tried(int n) {
        try {
            return 1 + 2 * (3 + fail(n));
        } catch (ArithmeticException e) {
            return n;
        }
    }

    static long sum(int a, long b, int c, long d) { return a + b + c + d; }

    public static void main(String[] args) {
        Out.line(held(10, 3));
        long total = 0;
        for (int n = 0; n < 50; n++) {
            try {
                total += sum(n, n, fail(n), n);
            } catch (ArithmeticException e) {
                total += n;
            }
        }
        Out.line(total);
        try {
            Out.line(1 + fail(200));
        } catch (ArithmeticException e) {
            Out.line(e.getMessage());
        }
    }
}
