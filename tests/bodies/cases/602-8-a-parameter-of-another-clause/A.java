class A {
    void m() {
        try {
            m();
        } catch (NullPointerException e) {
            m();
        } catch (IllegalStateException f) {
            throw e;
        }
    }
}
