class A<T> {
    static T field;
}
