class Fibonacci {
    static int slow(int n) { return n < 2 ? n : slow(n - 1) + slow(n - 2); }

    static long fast(int n) {
        long a = 0;
        long b = 1;
        for (int left = n; left > 0; left--) {
            long next = a + b;
            a = b;
            b = next;
        }
        return a;
    }

    public static void main(String[] args) {
        Out.line(slow(18));
        Out.line(fast(90));
        Out.line(fast(100));
    }
}
