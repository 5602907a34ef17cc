import java.util.List;
class Box<T extends Number> { }
class Of<T, L extends List<T>> { }
class A {
    Box<Integer> box;
    Of<String, List<String>> of;
    void m() {
        Box<Integer> inside = null;
    }
}
