class A {
    void m(int a) {
        for (int b = 0, a = 1; b < 1; b++) m(b);
    }
}
