import java.util.List;

class A<T> {
    List<T> known;
    static void method(List<? super T> it) { }
}
