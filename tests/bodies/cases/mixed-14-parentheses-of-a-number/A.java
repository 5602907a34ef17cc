class A {
    void m(int i) {
        for (int j : (i)) m(j);
    }
}
