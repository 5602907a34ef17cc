class A {
    char m(int a) {
        if (a > 0) return 65;
        return a;
    }
}
