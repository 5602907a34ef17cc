class A {
    volatile int first;
    final volatile int number = 1;
}
