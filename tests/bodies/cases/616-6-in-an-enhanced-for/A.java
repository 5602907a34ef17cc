class A {
    void m(int[] b) {
        int a = 1;
        for (int a : b) m(b);
    }
}
