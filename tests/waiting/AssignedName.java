class Main {
    int f() {
        int y;
        ++y;
        return y;
    }
}
