class Main {
    int f() {
        int y;
        (y) += 1;
        return y;
    }
}
