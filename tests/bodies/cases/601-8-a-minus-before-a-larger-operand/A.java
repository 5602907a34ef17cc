class A {
    int a = -2147483648 - 1;
    int b = 1 -2147483648;
}
