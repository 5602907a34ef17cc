class A {
    <T extends B> void method(T.M it) { }
}
class B {
    static class M { }
}
