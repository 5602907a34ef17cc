class A {
    void m(int a) {
        switch (a) {
            case 1:
                int b = 1;
                break;
            case 2:
                int b = 2;
        }
    }
}
