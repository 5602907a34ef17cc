class A {
    void m(int a) {
        switch (a) {
            case 1:
                break;
            default:
                continue;
        }
    }
}
