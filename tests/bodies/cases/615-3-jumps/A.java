class A {
    void m(int a, boolean b) {
        out: {
            if (b) break out;
            also: while (b) {
                switch (a) {
                    case 1:
                        continue;
                    case 2:
                        continue also;
                    case 3:
                        break out;
                    case 4:
                        break also;
                }
                if (a > 1) break;
            }
        }
        out: for (;;) {
            break out;
        }
    }
}
