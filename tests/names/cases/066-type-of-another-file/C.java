class C {
    static class M extends B.M { }
}
