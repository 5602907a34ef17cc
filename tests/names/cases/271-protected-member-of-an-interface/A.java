interface I {
    class A { }
    protected interface J { }
}
