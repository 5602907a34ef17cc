class Box<T extends Comparable<T>> { }
class A {
    Box<? super Integer> box;
}
