interface I {
    static void method();
}
