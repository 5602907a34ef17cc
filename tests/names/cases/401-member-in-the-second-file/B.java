class B {
    static class M { }
    static class M { }
}
