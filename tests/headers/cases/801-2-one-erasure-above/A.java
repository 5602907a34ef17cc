import java.util.List;
class A {
    void m(List<String> list) { }
}
class B extends A {
    void m(List<Integer> list) { }
}
