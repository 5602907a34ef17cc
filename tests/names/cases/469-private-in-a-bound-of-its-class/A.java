class B { }
class A<T,
    U extends A.P> {
    private static class P { }
}
