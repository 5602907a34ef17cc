class A {
    private static class P {
        static class M { }
    }
    static class B extends P { }
    B.M first;
}
class C {
    A.B.M second;
}
