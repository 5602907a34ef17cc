class ExitsWithZero {
    public static void main(String[] args) {
        Out.line("before");
        System.exit(0);
    }
}
