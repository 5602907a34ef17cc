class A {
    byte[] a = {1, 'a', 200};
}
