class B {
    private static class M { }
    static class M { }
}
