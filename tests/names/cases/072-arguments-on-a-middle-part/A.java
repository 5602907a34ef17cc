class A<T> {
    java.util.
        Map<T, T>
        .Entry<T, T> field;
}
