class A {
    private int f;
    static class B extends A {
        int m(B b, int[] a) {
            return ((A) b).f + super.f + a.length + b.hashCode();
        }
    }
}
