class B<T> {
    static class M<U> { }
    interface I { }
}
class A extends B<String> {
    M<A> field;
    I other;
    A.M<String> third;
}
