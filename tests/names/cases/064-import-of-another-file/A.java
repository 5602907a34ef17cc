import java.util.List;
class A {
    List<A> list;
}
