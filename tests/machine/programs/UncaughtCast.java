class UncaughtCast {
    public static void main(String[] args) {
        Object args2 = args;
        Out.line("begins");
        Integer one = (Integer) args2;
        Out.line(one);
    }
}
