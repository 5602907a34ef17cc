class A {
    void method(int number) {
        out: for (;;) {
            do {
                if (number == 0) {
                } else if (number == 1) {
                } else { Nope unknown; break out; }
            } while (number > 2);
        }
    }
}
