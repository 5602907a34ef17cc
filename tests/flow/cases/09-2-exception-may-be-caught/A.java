class A {
    void m() {
        try { m(); } catch (Exception e) { }
        try { m(); } catch (Throwable e) { }
    }
}
