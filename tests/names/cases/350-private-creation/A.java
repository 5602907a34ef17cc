class A {
    Object method() {
        return new B.M();
    }
}
class B {
    private static class M { }
}
