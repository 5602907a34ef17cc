import java.util.List;
class A {
    List<String>[] m() {
        return new List<String>[2];
    }
}
