abstract class B { }
class A {
    Object m() {
        return new B();
    }
}
