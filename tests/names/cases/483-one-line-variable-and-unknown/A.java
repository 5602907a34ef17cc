class A<T> {
    static T first; Nope second;
}
