import java.util.List;
class A {
    void m(List<String> list) { }
    void m(List<Integer> list) { }
}
