class A<T> {
    T known;
    static T method() { return null; }
}
