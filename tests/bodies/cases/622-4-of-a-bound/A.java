interface I {
    int F = 1;
}
interface J {
    int F = 1;
}
class A<T extends I & J> {
    int m(T t) {
        return t.F;
    }
}
