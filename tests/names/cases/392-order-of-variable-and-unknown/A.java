class A<T> {
    static java.util.Map<T, Nope> field;
}
