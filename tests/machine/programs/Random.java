/** A generator of pseudo-random numbers and a check sum of what it gives. */
class Random {
    private long state;

    Random(long seed) { state = seed; }

    int next() {
        state = state * 6364136223846793005L + 1442695040888963407L;
        return (int) (state >>> 33);
    }

    public static void main(String[] args) {
        Random random = new Random(42);
        int mixed = 0;
        long sum = 0;
        for (int n = 0; n < 20000; n++) {
            int next = random.next();
            mixed = mixed * 31 ^ next;
            sum += next % 1000;
        }
        Out.line(mixed);
        Out.line(sum);
        Out.line(random.next());
    }
}
