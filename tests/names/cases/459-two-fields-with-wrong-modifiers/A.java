abstract class A {
    abstract int first,
        first;
}
