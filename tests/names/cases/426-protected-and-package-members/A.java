class B {
    protected static class M { }
    static class N { }
    protected interface I { }
}
class A extends B {
    M first;
    N second;
    A.I third;
}
class C {
    B.M first;
    A.N second;
    A.I third;
}
