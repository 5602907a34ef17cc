interface I {
    int FIRST = 1;
    volatile int NUMBER = 1;
}
