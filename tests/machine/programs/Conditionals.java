class Conditionals {
    static String size(int n) {
        return n < 0 ? "negative" : n == 0 ? "zero" : n < 10 ? "small" : n < 100 ? "middle" : "large";
    }

    public static void main(String[] args) {
        int[] all = { -5, 0, 9, 10, 99, 100 };
        for (int n : all) {
            Out.line(size(n));
            long mixed = n > 5 ? n : 1L << 40;
            Out.line(mixed);
            Object o = n > 5 ? "text" : Integer.valueOf(n);
            Out.line(o instanceof String);
            int chosen = (n & 1) == 0 ? n > 0 ? 1 : 2 : n > 0 ? 3 : 4;
            Out.line(chosen);
            byte b = 3;
            int same = n > 0 ? b : 'c';
            Out.line(same);
        }
    }
}
