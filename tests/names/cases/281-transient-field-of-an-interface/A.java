interface I {
    transient int NUMBER = 1;
}
