class Main {
    static int f() {
        try { try { } finally { try { } finally { try { } finally { return 1; } } } } finally { System.out.println("o"); }
    }
    public static void main(String[] args) { System.out.println(f()); }
}
