class A {
    void m(int a) {
        switch (a) {
            case 1 / 1:
                break;
            case 1 / 0:
        }
    }
}
