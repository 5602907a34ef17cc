class A {
    void m(boolean b) {
        a: while (b) {
            a: while (b) {
                break a;
            }
        }
    }
}
