class A {
    void m(int a) {
        switch (a) {
            default:
                break;
            case 1:
                break;
            default:
        }
    }
}
