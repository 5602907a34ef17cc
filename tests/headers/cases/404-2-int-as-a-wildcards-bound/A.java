import java.util.List;
class A {
    List<? extends int> list;
}
