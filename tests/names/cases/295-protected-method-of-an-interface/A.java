interface I {
    protected abstract void method();
}
