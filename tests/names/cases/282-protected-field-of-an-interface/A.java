interface I {
    protected static int NUMBER = 1;
}
