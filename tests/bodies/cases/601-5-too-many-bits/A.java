class A {
    long a = 0x1FFFFFFFF;
}
