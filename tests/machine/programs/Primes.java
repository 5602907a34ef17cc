class Primes {
    public static void main(String[] args) {
        boolean[] composite = new boolean[5000];
        int count = 0;
        long sum = 0;
        for (int n = 2; n < composite.length; n++) {
            if (composite[n]) {
                continue;
            }
            count++;
            sum += n;
            for (int m = n * n; m < composite.length; m += n) {
                composite[m] = true;
            }
        }
        Out.line(count);
        Out.line(sum);
    }
}
