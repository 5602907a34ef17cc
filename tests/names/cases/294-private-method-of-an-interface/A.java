interface I {
    void first();
    private void method();
}
