interface I {
    int C = 1;
    Object D = this;
}
