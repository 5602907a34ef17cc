class A<T> {
    T<String> field;
}
