class Main {
    static final int F;
    static { Main.F = 1; }
}
