abstract class C {
    int go() {
        return 1;
    }
}
abstract class B extends C {
    abstract int more();
}
class A extends B {
    int more() {
        return super.go() + super.hashCode();
    }
}
