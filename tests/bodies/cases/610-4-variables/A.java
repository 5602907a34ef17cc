class A {
    int f;
    static int g;
    void m(int[] a, A b) {
        (a[0]) = ((f)) = b.f = A.g = this.g = (b).f++;
        (a)[0] += 1;
        ++(f);
    }
}
