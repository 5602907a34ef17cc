class ValueOf {
    public static void main(String[] args) {
        int[] ints = { 0, 1, -1, 9, 10, -10, 99, 100, 2147483647, -2147483648 };
        for (int n : ints) {
            Out.line(String.valueOf(n));
            Out.line(Integer.valueOf(n).toString());
        }
        long[] longs = { 0, -1, 1000000000000L, 9223372036854775807L, -9223372036854775808L };
        for (long n : longs) {
            Out.line(String.valueOf(n));
            Out.line(Long.valueOf(n).toString());
        }
        Out.line(String.valueOf('x'));
        Out.line(String.valueOf(true));
        Out.line(String.valueOf((Object) null));
        Out.line(String.valueOf((Object) Boolean.valueOf(false)));
        Out.line(Byte.valueOf((byte) -128).toString());
        Out.line(Short.valueOf((short) 32767).toString());
        Out.line(Character.valueOf('q').toString());
    }
}
