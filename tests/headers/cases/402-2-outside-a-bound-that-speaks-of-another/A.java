import java.util.List;
class Box<T, L extends List<T>> { }
class A {
    Box<String, List<Integer>> box;
}
