class A {
    void go() { }
    void m() {
        this.go().hashCode();
    }
}
