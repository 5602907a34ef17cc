interface I {
    int C = 1;
    void go();
}
class B {
    int f;
}
class A<T extends B & I> {
    int m(T t) {
        t.go();
        return t.f + t.C + t.hashCode();
    }
}
