class A {
    A() {
        return;
    }
    int m() {
        return 'a';
    }
    void n() {
        if (m() > 0) return;
        n();
    }
}
