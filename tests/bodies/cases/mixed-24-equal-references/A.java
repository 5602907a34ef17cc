interface I { }
class B { }
final class F { }
class A {
    boolean m(I i, B b, F f) {
        boolean c = i == b;
        return i == f;
    }
}
