class A {
    int m(boolean b) {
        while (true) {
            if (b) break;
        }
    }
}
