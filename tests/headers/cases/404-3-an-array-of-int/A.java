import java.util.List;
class A {
    List<int[]> list;
    List<? extends long[]> others;
}
