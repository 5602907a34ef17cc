class A {
    long a = -(int) 2147483648;
}
