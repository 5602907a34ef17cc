class A extends B.M { }
class B {
    private static class M { }
}
