interface I {
    final void method();
}
