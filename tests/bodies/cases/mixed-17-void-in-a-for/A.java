class A {
    boolean n() {
        return true;
    }
    void m() {
        for (m(); n(); m(), m()) m();
        for (m(); m(); m()) n();
    }
}
