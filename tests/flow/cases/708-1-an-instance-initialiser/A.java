class A {
    {
        throw new RuntimeException();
    }
}
