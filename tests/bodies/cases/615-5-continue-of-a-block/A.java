class A {
    void m(boolean b) {
        a: {
            while (b) {
                continue a;
            }
        }
    }
}
