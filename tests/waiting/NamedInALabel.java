class Main {
    static int f(int k) {
        switch (k) {
            case 0: final int x = 5; break;
            case 1:
                switch (k) {
                    case x: return 1;
                }
        }
        return 0;
    }
}
