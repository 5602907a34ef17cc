class B {
    static class M { }
    private static class M { }
}
