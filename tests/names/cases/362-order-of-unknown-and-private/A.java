import java.util.Map;
class B {
    private static class M<T> { }
}
class A {
    Map<Nope, B.M<A>> field;
}
