class A<T> {
    java.util.
        Map<Nope, T>.Entry<T, T> field;
}
