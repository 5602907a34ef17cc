import java.util.List;
class A {
    List<? extends Number>[] a = {null};
}
