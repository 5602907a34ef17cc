class B {
    static class T { }
}
class A<T> extends B {
    static T field;
}
