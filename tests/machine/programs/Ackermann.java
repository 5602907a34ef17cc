class Ackermann {
    static int of(int m, int n) {
        if (m == 0) {
            return n + 1;
        }
        return n == 0 ? of(m - 1, 1) : of(m - 1, of(m, n - 1));
    }

    public static void main(String[] args) {
        for (int m = 0; m < 3; m++) {
            Out.line(of(m, 20));
        }
        Out.line(of(3, 4));
    }
}
