import java.util.List;
class A {
    A(List<String> list) { }
    A(List<Integer> list) { }
}
