class A {
    int m(boolean b) {
        while (true) {
            if (b) return 1;
        }
    }
}
