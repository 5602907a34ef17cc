class A {
    byte a = 127;
    byte b = 128;
}
