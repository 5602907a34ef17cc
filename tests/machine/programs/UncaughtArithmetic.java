class UncaughtArithmetic {
    public static void main(String[] args) {
        Out.line("begins");
        Out.line(1 / args.length);
    }
}
