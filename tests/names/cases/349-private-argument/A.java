import java.util.List;

class A {
    List<B.M[]> field;
}
class B {
    private static class M { }
}
