class Main {
    static final int F;
    static { int y = Main.F; F = 1; System.out.println(y); }
    public static void main(String[] args) { System.out.println(F); }
}
