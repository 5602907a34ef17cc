class Collatz {
    static int steps(long n) {
        int steps = 0;
        while (n != 1) {
            n = (n & 1) == 0 ? n >> 1 : 3 * n + 1;
            steps++;
        }
        return steps;
    }

    public static void main(String[] args) {
        int most = 0;
        int at = 0;
        for (int n = 1; n < 2000; n++) {
            int steps = steps(n);
            if (steps > most) {
                most = steps;
                at = n;
            }
        }
        Out.line(at); Out.line(most);
        Out.line(steps(837799));
    }
}
