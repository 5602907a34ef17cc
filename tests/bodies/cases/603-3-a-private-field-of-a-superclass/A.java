class A {
    private int f;
    static class B extends A {
        int m(B b) {
            return b.f;
        }
    }
}
