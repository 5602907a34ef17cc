class A<T> {
    static java.util.Map<Nope, T> field;
}
