interface A {
    int[] ALL = { }, ALL[] = { };
}
