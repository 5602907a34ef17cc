class B {
}
class C extends B {
    int f;
}
class A<T extends B> {
    int m(T t) {
        return t.f;
    }
}
