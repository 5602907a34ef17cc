interface I {
    private class A { }
}
