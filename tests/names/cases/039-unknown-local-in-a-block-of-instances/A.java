class A {
    {
        while (true) {
            Nope[] unknown;
        }
    }
}
