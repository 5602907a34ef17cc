class A {
    int a = -2147483648;
    int b = - - 2147483648;
    int c = 0xFFFFFFFF;
    int d = 037777777777;
    int e = 0b11111111111111111111111111111111;
    long f = -9223372036854775808L;
    long g = 0xFFFFFFFFFFFFFFFFL;
}
