import java.util.List;
class A {
    List<int> list;
}
