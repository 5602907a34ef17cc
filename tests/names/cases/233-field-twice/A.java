class A {
    int number;
    String number;
}
