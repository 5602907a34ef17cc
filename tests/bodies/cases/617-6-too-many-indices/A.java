class A {
    int m(int[][] a) {
        return a[0][1] + a[0][1][2];
    }
}
