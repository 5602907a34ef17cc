class A {
    long a = 1 + 9223372036854775808L;
}
