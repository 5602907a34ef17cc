class A {
    int m(int k) {
        int x;
        switch (k) {
            case 0: x = 1; break;
            default: x = 2;
        }
        return x;
    }
}
