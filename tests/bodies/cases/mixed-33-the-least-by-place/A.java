class A {
    void m(boolean b) {
        int a = c + (b ? 1 : d);
        String s = 1;
        a = e;
    }
}
