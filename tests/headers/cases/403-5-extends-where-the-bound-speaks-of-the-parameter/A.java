class Box<T extends Comparable<T>> { }
class A {
    Box<? extends Integer> box;
    Box<?> any;
    Box<Integer> exact;
}
