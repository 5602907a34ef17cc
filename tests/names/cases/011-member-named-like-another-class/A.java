class A {
    static class B { }
}
class B {
    static class M { }
}
class C {
    static class B { }
    static class M { }
}
