class ExitsFar {
    static void deep(int n) {
        if (n == 0) System.exit(1000);
        deep(n - 1);
    }

    public static void main(String[] args) {
        deep(50);
    }
}
