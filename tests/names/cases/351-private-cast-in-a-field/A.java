class A {
    Object field = (B.M) null;
}
class B {
    private static class M { }
}
