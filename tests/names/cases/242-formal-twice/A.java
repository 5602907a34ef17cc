class A {
    void method(int number, String number) { }
}
