class B {
    private static class M<T> { }
}
class A {
    B.M<Nope> field;
}
