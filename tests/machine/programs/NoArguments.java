class NoArguments {
    public static void main(String[] args) {
        Out.line(args != null);
        Out.line(args.length);
    }
}
