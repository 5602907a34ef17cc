class B {
    private static class P { }
}
class A {
    B.P.Nope field;
}
