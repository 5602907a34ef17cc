class A {
    int f;
    static int g = 1;
    static int h = this.f + g;
    static {
        this.f = 1;
    }
}
