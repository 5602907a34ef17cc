interface I {
    class M { }
}
class B {
    static class M { }
}
class A extends B implements I {
    M[] field;
}
