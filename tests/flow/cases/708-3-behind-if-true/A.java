class A {
    {
        if (true) throw new RuntimeException();
    }
    static {
        while (true) { break; }
    }
}
