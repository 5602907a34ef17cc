class A {
    void m(boolean b) {
        out: in: while (b) {
            if (b) continue in;
            continue out;
        }
    }
}
