class A {
    {
        a = 1;
        a += 1;
    }
    int a;
}
