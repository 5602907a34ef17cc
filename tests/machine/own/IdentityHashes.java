// arguments: a bb
/** Identity hashes are numbers in the order in which objects and arrays are made. */
class IdentityHashes {
    static class Takes {
        final Object held;
        Takes(Object held) { this.held = held; }
    }

    static int zero;
    static class Bad { static int x = 1 / zero; }

    static int next() { return new Object().hashCode(); }

    public static void main(String[] args) {
        // two strings of the arguments, each with its array, and the array of both come first
        Out.line(args.hashCode());
        // System makes two streams at the first line that is put out
        Out.line(next());
        int at = next();
        Out.line(next() - at);
        at = next();
        String one = "text";
        Out.line(next() - at);
        at = next();
        String two = "text";
        Out.line(next() - at);
        at = next();
        int[][] even = new int[2][3];
        Out.line(next() - at);
        at = next();
        int[][][] cube = new int[2][3][4];
        Out.line(next() - at);
        Out.numbers(new long[] { cube[0].hashCode() - cube.hashCode(), cube[1].hashCode() - cube[0].hashCode(), cube[0][0].hashCode() - cube[0].hashCode() });
        at = next();
        int[][] open = new int[2][];
        Out.line(next() - at);
        at = next();
        try {
            at += zero / zero;
        } catch (ArithmeticException e) {
            Out.line(e.hashCode() - at);
        }
        Out.line(next() - at);
        at = next();
        try {
            even = new int[2][zero - 1];
        } catch (NegativeArraySizeException e) {
            Out.line(e.hashCode() - at);
        }
        at = next();
        try {
            at += Bad.x;
        } catch (ExceptionInInitializerError e) {
            Out.line(e.hashCode() - at);
        }
        at = next();
        try {
            at += Bad.x;
        } catch (NoClassDefFoundError e) {
            Out.line(e.hashCode() - at);
        }
        Takes takes = new Takes(new Object());
        Out.line(takes.held.hashCode() - takes.hashCode());
        Object[] all = { new Object(), new Object() };
        Out.numbers(new long[] { all[0].hashCode() - all.hashCode(), all[1].hashCode() - all.hashCode() });
        at = next();
        Out.line(new Takes(null).toString());
        Out.line(at);
        Out.line(one == two);
    }
}
