interface I {
    private int NUMBER = 1;
}
