class UncaughtSize {
    public static void main(String[] args) {
        Out.line(new int[2][args.length - 1].length);
    }
}
