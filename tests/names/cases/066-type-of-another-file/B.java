class B {
    static class M { }
}
