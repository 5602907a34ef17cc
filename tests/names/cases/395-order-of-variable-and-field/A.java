class A<T> {
    int field;
    static T field;
}
