class Main {
    static int f(int k) {
        switch (k) {
            case 0: final int x = 5; break;
            case 1: int y = x; return y;
        }
        return 0;
    }
}
