class B { }
class C { }
class A {
    Object m(B b) {
        return (Object) (C) b;
    }
}
