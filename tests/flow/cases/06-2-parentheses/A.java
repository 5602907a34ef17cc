class A {
    int m(boolean b) {
        int x;
        if ((b && ((x = 1) > 0))) return x;
        return 0;
    }
}
