class Main {
    static final int F;
    static { int y = F; F = 1; }
}
