class A {
    int m(int k) {
        switch (k) {
            case 0: int x = 5; break;
            case 1: return x;
        }
        return 0;
    }
}
