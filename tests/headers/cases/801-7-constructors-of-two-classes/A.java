import java.util.List;
class A {
    A(List<String> list) { }
    A(String text) { }
}
class B extends A {
    B(List<Integer> list) {
        super("");
    }
}
