class A {
    void method(int number) {
        switch (number) {
            case 1:
                break;
            default: Nope unknown;
        }
    }
}
