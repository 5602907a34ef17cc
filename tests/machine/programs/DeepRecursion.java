/** Many frames at once. */
class DeepRecursion {
    static int depth(int n) { return n == 0 ? 0 : 1 + depth(n - 1); }

    static long sum(long n, Object held) {
        if (n == 0) return held == null ? 0 : 1;
        long rest = sum(n - 1, held);
        return rest + n;
    }

    static boolean even(int n) { return n == 0 || odd(n - 1); }
    static boolean odd(int n) { return n != 0 && even(n - 1); }

    static int thrown(int n) {
        if (n == 0) throw new IllegalStateException("deep");
        return thrown(n - 1) + 1;
    }

    final DeepRecursion next;
    DeepRecursion(int n) { next = n == 0 ? null : new DeepRecursion(n - 1); }

    public static void main(String[] args) {
        Out.line(depth(20000));
        Out.line(sum(20000, args));
        Out.line(even(20001));
        try {
            Out.line(thrown(20000));
        } catch (IllegalStateException e) {
            Out.line(e.getMessage());
        }
        int count = 0;
        for (DeepRecursion one = new DeepRecursion(10000); one != null; one = one.next) count++;
        Out.line(count);
    }
}
