class VarArgs {
    static int count(Object... all) { return all == null ? -1 : all.length; }
    static long sum(long first, int... rest) {
        long sum = first;
        for (int n : rest) sum = sum * 10 + n;
        return sum;
    }
    static String join(String by, String... all) {
        StringBuilder b = new StringBuilder();
        for (int at = 0; at < all.length; at++) b.append(at == 0 ? "" : by).append(all[at]);
        return b.toString();
    }

    public static void main(String[] args) {
        Out.line(count());
        Out.line(count(1));
        Out.line(count("a", 2, null));
        Out.line(count((Object[]) null));
        Out.line(count((Object) null));
        Out.line(count(new int[3]));
        Out.line(count((Object[]) new String[4]));
        Out.line(sum(5));
        Out.line(sum(5, 1, 2, 3));
        Out.line(sum(5, new int[] { 9, 9 }));
        Out.line(join("-", "a", "b", "c"));
        Out.line(join("-"));
    }
}
