class A<T extends Comparable<T>> {
    B known;
}
