class A {
    void m(int a) {
        switch (a) {
            case 97:
                break;
            case 'a':
        }
    }
}
