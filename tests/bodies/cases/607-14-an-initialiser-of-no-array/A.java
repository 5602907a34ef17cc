class A {
    int[] a = {1, 2};
    int[][] b = {{1}, {}, null};
    int[] c = {1, {2}};
}
