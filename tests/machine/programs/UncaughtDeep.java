class UncaughtDeep {
    static int f(int n) {
        if (n == 0) {
            int[] none = null;
            return none.length;
        }
        return f(n - 1) + 1;
    }

    public static void main(String[] args) {
        Out.line(f(5000));
    }
}
