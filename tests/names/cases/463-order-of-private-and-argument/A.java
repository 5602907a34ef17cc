import java.util.Map;

class A {
    Map<Nope, B.M> field;
}
class B {
    private static class M { }
}
